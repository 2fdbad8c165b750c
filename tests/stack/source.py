#!/usr/bin/env python3
"""The calls and the locals of the source: source.py [-mir FILE] [-repository DIR] CRATE...

Reads the compiler's own form (MIR) of the named crates and of every crate below them in crates.txt, and of the kit's functions
that they reach, down to functions of C, which are named. A generic function is read once for each choice of its types and of
the impls for its bounds, as the compiler makes code of it; so every call has its target, and every local its size. Refused is
  - a function that reaches itself, directly or through others (a self-call in last place is a loop in the archive, so only the
    source can show it), and a chain of ever new choices;
  - a call that does not name its target, and a target of ours that was not read. Of a function that is not read, each method
    of the impls that it is given counts as called.
A library's MIR stands in its rlib, from which the compiler links it. A static library or a program has no rlib: its own
functions are read from the text that `rt check --generated` writes of them.
Then it adds up the locals along the deepest chain from a function on, as they stand in the source: what code that no optimiser
has touched would keep.
With -mir a file, in one form or the other, takes the place of the crates.
"""
import argparse
import collections
import json
import pathlib
import re
import subprocess
import sys
import tempfile

# A chain of calls is shorter, unless each call makes a new choice of types.
LONGEST = 200


class Bad(Exception):
    """What the source is refused for."""


# Types, and what stands for a bound, are nested tuples: (form, content), with ("Param", i) and ("Given", i) for what the caller
# chooses. An impl is ("Impl", methods, types, impls for its own bounds).
Call = collections.namedtuple("Call", "target types given")  # target: a name, or (what stands for the bound, number of the method)
Function = collections.namedtuple("Function", "name locals calls types bounds")
Chosen = collections.namedtuple("Chosen", "name types given")  # a function with its types and its impls


def put_in(tree, types, given):
    """A type, an impl or several, with what the caller chose."""
    if not isinstance(tree, tuple):
        return tree
    if tree[:1] == ("Param",) or tree[:1] == ("Given",):
        chosen = types if tree[0] == "Param" else given
        if tree[1] >= len(chosen):
            raise Bad(f"no choice is known for {tree}")
        return chosen[tree[1]]
    return tuple(put_in(each, types, given) for each in tree)


def rounded(size, alignment):
    return -(-size // alignment) * alignment


def laid_out(sizes):
    """Size and alignment of fields side by side."""
    size, widest = 0, 1
    for bytes_, alignment in sizes:
        size = rounded(size, alignment) + bytes_
        widest = max(widest, alignment)
    return rounded(size, widest), widest


def measure(kind, shapes):
    """Size and alignment of a type, or a number that stands among types."""
    form, content = (kind, None) if isinstance(kind, str) else (kind[0], kind[1])
    if form == "Int":
        return content // 8, content // 8
    if form in ("Bool", "Unit"):
        return (1, 1) if form == "Bool" else (0, 1)
    if form in ("Ptr", "Ref"):
        return 8, 8
    if form in ("Lit", "Const"):
        return content
    if form == "Struct":
        return laid_out([measure(each, shapes) for each in content[1]])
    if form == "Array":
        size, alignment = measure(content[0], shapes)
        return size * measure(content[1], shapes), alignment
    if form == "Named" and content in shapes:
        shape, inner = shapes[content], kind[2]
        if shape[0] == "Fields":
            return laid_out([measure(put_in(each, inner, ()), shapes) for each in shape[1]])
        cases = [laid_out([(1, 1), *(measure(put_in(each, inner, ()), shapes) for each in case)]) for case in shape[1]]
        widest = max((alignment for _, alignment in cases), default=1)
        return rounded(max((size for size, _ in cases), default=0), widest), widest
    raise Bad(f"no size is known for {kind}")


def forms(tree):
    """Every form inside, and what it holds: the rlibs write {"Form": content}."""
    todo = [tree]
    while todo:
        here = todo.pop()
        if isinstance(here, dict):
            yield from here.items()
            todo.extend(here.values())
        elif isinstance(here, list):
            todo.extend(here)


def type_of(tree):
    """A type of the rlibs; lifetimes do not matter to sizes and calls."""
    if isinstance(tree, list):
        return tuple(type_of(each) for each in tree)
    if not isinstance(tree, dict):
        return tree
    form, content = next(iter(tree.items()))
    if form == "Ref":
        return ("Ref", type_of(content[-1]))
    if form == "Named":
        return ("Named", content[0]["name"], type_of(content[1]))
    return (form, type_of(content))


def impl_of(tree, methods):
    """What stands for a bound, in the rlibs."""
    form, content = next(iter(tree.items()))
    if form == "Given":
        return (form, content)
    if form != "Impl":
        raise Bad(f"no methods are known for {form}")
    name, types, given = content
    return (form, methods[name], type_of(types), tuple(impl_of(each, methods) for each in given))


def linked(name, mir, shapes):
    """A function as its library's rlib has it."""
    shapes.update({each["name"]: type_of(each["shape"]) for each in mir["types"]})
    generics = mir["generics"]
    methods = {each["name"]: tuple(each["methods"]) for each in generics["impls"]}
    calls, called, mentioned = [], 0, 0
    for form, content in forms(mir["body"]):
        if form == "Call" and ("Fn" in content[0] or "Method" in content[0]):
            called += 1
            kind, parts = next(iter(content[0].items()))
            target = parts[0] if kind == "Fn" else (impl_of(parts[0], methods), parts[1])
            given = tuple(impl_of(each, methods) for each in parts[-1]["dicts"])
            calls.append(Call(target, type_of(parts[-1]["types"]), given))
        elif form in ("Call", "CallV", "Foreign"):
            raise Bad(f"{name}: a call without a name")
        elif form in ("Fn", "Method"):
            mentioned += 1
    if mentioned != called:
        raise Bad(f"{name}: a function is used as a value")
    return Function(name, [type_of(each["ty"]) for each in mir["locals"]], calls, len(generics["types"]), len(generics["bounds"]))


def term(text):
    """An antt term as nested lists: (a b c) is [a, b, c], and (a, b) is [",", a, b]."""
    stack = [[[]]]
    for token in re.findall(r'"(?:[^"\\]|\\.)*"|[(),]|[^\s(),"]+', text):
        if token == "(":
            stack.append([[]])
        elif token == ",":
            stack[-1].append([])
        elif token == ")":
            parts = [part[0] if len(part) == 1 else part for part in stack.pop() if part]
            stack[-1][-1].append(parts[0] if len(parts) == 1 else [",", *parts])
        else:
            stack[-1][-1].append(token)
    if len(stack) != 1:
        raise Bad("brackets of the written form do not match")
    return stack[0][0] if len(stack[0][0]) != 1 else stack[0][0][0]


def walk(node):
    """Every list inside."""
    todo = [node]
    while todo:
        here = todo.pop()
        if isinstance(here, list):
            yield here
            todo.extend(here)


def elements(chain):
    """A list written as (cons a (cons b nil))."""
    while isinstance(chain, list):
        yield chain[1]
        chain = chain[2]


def spelled(codes):
    return "".join(chr(int(code)) for code in elements(codes))


def kind_of(node):
    """A type of the written form, as those of the rlibs."""
    form, content = (node, []) if isinstance(node, str) else (node[0], node[1:])
    form = form.removeprefix("Syntax.ty_")
    if form in ("bool", "unit", "ptr"):
        return form.capitalize()
    if form == "int":
        return ("Int", int(content[0].removeprefix("Syntax.w")))
    if form == "ref":
        return ("Ref", "Unit")
    if form in ("param", "const"):
        return (form.capitalize(), int(content[0]))
    if form in ("array", "array_p"):
        return ("Array", (kind_of(content[0]), ("Lit" if form == "array" else "Param", int(content[1]))))
    if form == "struct":
        return ("Struct", ("", kinds_of(content[1])))
    if form == "named":
        return ("Named", spelled(content[0][1]), kinds_of(content[1]))
    raise Bad(f"no size is known for {node}")


def kinds_of(chain):
    return tuple(kind_of(each) for each in elements(chain))


def given_of(chain):
    """What stands for bounds in the written form."""
    return tuple(impl_written(each) for each in elements(chain))


def impl_written(node):
    form, content = node[0].removeprefix("Syntax."), node[1:]
    if form == "given":
        return ("Given", int(content[0]))
    if form != "impl":
        raise Bad(f"no methods are known for {form}")
    methods, types, given = content
    return ("Impl", tuple(each.strip('"') for each in elements(methods)), kinds_of(types), given_of(given))


def shape_of(node):
    if node[0] == "Table.fields":
        return ("Fields", kinds_of(node[1]))
    return ("Variants", tuple(kinds_of(case) for case in elements(node[1])))


def written(name, text, shapes):
    """A function as `rt check --generated` writes it: definitions, each a paragraph."""
    terms, targets = {}, {}
    for paragraph in text.strip().split("\n\n"):
        if found := re.match(r"abbrev pub (\S+) : [^\n]*\n\1 =(.*)", paragraph, re.S):
            terms[found.group(1)] = [] if found.group(2).lstrip().startswith("record") else term(found.group(2))
        elif paragraph.startswith("-- "):
            for crate, path, other in re.findall(r"^use Rattle\.(\S+?)\.proofs\.(\S+)\.Symbol(?: as (\S+))?$", paragraph, re.M):
                targets[f"{other or 'Symbol'}.name"] = "::".join([crate, *path.split(".")])
        else:
            raise Bad(f"{name}: a paragraph that is no definition: {paragraph[:80]}")
    if "locals" not in terms:
        raise Bad(f"{name}: no locals are written")
    locals_ = terms.get("by_name-locals", terms["locals"])
    shapes.update({spelled(each[1]): shape_of(each[3]) for each in elements(terms.get("table", "List.[]"))})
    calls, called, mentioned = [], 0, 0
    for node in walk(list(terms.values())):
        mentioned += sum(isinstance(word, str) and word.endswith(".name") for word in node)
        if node[:1] == ["Syntax.call"]:
            target, chosen = (node[1], ()) if isinstance(node[1], str) else (node[1][0], node[1][-1])
            if target not in targets:
                raise Bad(f"{name}: a call without a name")
            called += 1
            # Types and impls stand as a pair behind the name.
            types, given = (kinds_of(chosen[1]), given_of(chosen[2])) if chosen else ((), ())
            calls.append(Call(targets[target], types, given))
        elif node[:1] == ["Syntax.call_v"]:
            raise Bad(f"{name}: a call without a name")
        elif node[:1] in (["Syntax.fn_addr"], ["Syntax.vtable"]):
            raise Bad(f"{name}: a function is used as a value")
    if mentioned != called:
        raise Bad(f"{name}: a function is used as a value")
    locals_ = [kind_of(each[1]) for each in elements(locals_)]
    return Function(name, locals_, calls, left_open("Param", (locals_, calls)), left_open("Given", calls))


def left_open(form, tree):
    """How many choices a function leaves to its callers, as far as it uses them."""
    if isinstance(tree, tuple) and tree[:1] == (form,):
        return tree[1] + 1
    return max((left_open(form, each) for each in tree), default=0) if isinstance(tree, (tuple, list)) else 0


Crate = collections.namedtuple("Crate", "folder libraries is_library")


def crates_of(repository):
    crates = {}
    for line in (pathlib.Path(repository) / "crates.txt").read_text(encoding="utf-8").splitlines():
        head, colon, libraries = line.split("#")[0].partition(":")
        if colon:
            name, *words = head.split()
            folder = pathlib.Path(repository) / "crates" / name
            is_library = "staticlib" not in words and not (folder / "src" / "main.rt").exists()
            crates[name] = Crate(folder, libraries.split(), is_library)
    return crates


def below(crates, wanted):
    """The named crates and all of the repository that they depend on."""
    missing = [name for name in wanted if name not in crates]
    if missing:
        raise Bad(f"crates.txt has no {missing[0]}")
    reached, todo = set(), list(wanted)
    while todo:
        name = todo.pop()
        if name in crates and name not in reached:
            reached.add(name)
            todo.extend(crates[name].libraries)
    return [name for name in crates if name in reached]


def rt(crate, *words):
    done = subprocess.run(["rt", *words], cwd=crate.folder, stdout=subprocess.PIPE, stderr=subprocess.STDOUT, text=True)
    if done.returncode != 0:
        raise Bad(f"rt {words[0]} of {crate.folder.name} ended with {done.returncode}\n{done.stdout[-2000:]}")


def functions_written(name, crate, shapes):
    """Those of a static library or a program. Functions that call each other are written side by side in a folder +NAME."""
    with tempfile.TemporaryDirectory() as folder:
        rt(crate, "check", "--generated", folder)
        top = pathlib.Path(folder) / f"Rattle-{name}-proofs"
        for cycle in top.glob("**/Code/+*.antt"):
            raise Bad(f"reaches itself: {name}, {cycle.parent.parent.relative_to(top)}")
        found = sorted(top.glob("**/Code/Mir.antt"))
        if not found:
            raise Bad(f"nothing was written of {name}")
        for file in found:
            path = file.parent.parent.relative_to(top).parts
            if path != ("main+run",):  # the kit's own: it calls main, and prints the error that main may end with
                yield written("::".join([name, *path]), file.read_text(encoding="utf-8"), shapes)


class Kit:
    """The kit's functions, each read when it is asked for."""

    # std passes on names of these, so that a name may stand under std and the function under another of them.
    PARTS = ("core", "std_alloc", "std_collections", "std_heap", "std_io", "std", "io", "os", "libc")

    def __init__(self):
        page = subprocess.run(["rt", "doc"], stdout=subprocess.PIPE, text=True, check=True).stdout.strip()
        self.folder, self.mir = pathlib.Path(page).parent / "rlibs", None

    def load(self):
        self.mir = {}
        for part in self.PARTS:
            file = self.folder / f"{part}.rlib" / "toolchain" / "mir.json"
            self.mir.update(json.loads(file.read_text(encoding="utf-8")))

    def read(self, name, shapes):
        """The function of this name, or of the one name that ends alike; None for a function of C, or where there is none."""
        if self.mir is None:
            self.load()
        parts = name.split("::")
        for start in range(len(parts) - 1):
            ending = "::".join(["", *parts[start:]])
            found = [each for each in self.mir if ("::" + each).endswith(ending)]
            if len(found) == 1:
                mir = self.mir[found[0]]
                return None if any(form == "Foreign" for form, _ in forms(mir["body"])) else linked(name, mir, shapes)
            if found:
                break
        return None


def read_crates(repository, wanted):
    crates, functions, shapes = crates_of(repository), [], {}
    reached = below(crates, wanted)
    for name in wanted:
        # Both commands first bring the rlibs of the libraries below up to date.
        if crates[name].is_library:
            rt(crates[name], "lib")
        else:
            functions += functions_written(name, crates[name], shapes)
    for name in reached:
        if crates[name].is_library:
            mir = crates[name].folder / "out" / "rlib" / f"{name}.rlib" / "toolchain" / "mir.json"
            functions += [linked(*each, shapes) for each in json.loads(mir.read_text(encoding="utf-8"))]
    return Source(functions, shapes, crates, Kit())


Chain = collections.namedtuple("Chain", "size parts")


class Source:
    """Functions, of which none reaches itself and every call names its target; Bad otherwise."""

    def __init__(self, functions, shapes, crates, kit=None):
        self.functions, self.shapes, self.crates, self.kits = {each.name: each for each in functions}, shapes, crates, kit
        self.called, self.known, self.of_c = {}, {}, set()
        # A generic function is read where it is called: only there it is compiled.
        self.roots = sorted(each.name for each in functions if not each.types and not each.bounds)
        done = set()
        for name in self.roots:
            self.follow(Chosen(name, (), ()), (), done)
        # One that nothing calls is read as it stands, its types and bounds for themselves. What it calls through such a bound
        # is nothing yet: who calls it with an impl is read too, and then calls that impl's method through it.
        for each in sorted(functions):
            if each.name not in {chosen.name for chosen in done}:
                types, given = (tuple((form, i) for i in range(n)) for form, n in (("Param", each.types), ("Given", each.bounds)))
                self.follow(Chosen(each.name, types, given), (), done)

    def function(self, name):
        """The function of this name; None for one of C or of the kit that is not read."""
        if name not in self.functions and not self.is_ours(name) and name not in self.of_c:
            found = self.kits and self.kits.read(name, self.shapes)
            if found:
                self.functions[name] = found
            else:
                self.of_c.add(name)
        return self.functions.get(name)

    def targets(self, chosen):
        """What a function may call, with their types and impls; and those of C or of the kit that are not read."""
        if chosen not in self.called:
            read, unread = set(), set()
            resolved = (self.resolved(call, chosen) for call in self.functions[chosen.name].calls)
            todo = [each for each in resolved if each]
            while todo:
                here = todo.pop()
                if self.function(here.name) or self.is_ours(here.name):
                    read.add(here)
                else:
                    unread.add(here.name)
                    todo.extend(back for impl in here.given for back in self.methods(impl))  # it may call them back
            self.called[chosen] = read, unread
        return self.called[chosen]

    def resolved(self, call, chosen):
        """The target of a call, where its function is called with these types and impls; None through a bound that is open."""
        types = put_in(call.types, chosen.types, chosen.given)
        given = put_in(call.given, chosen.types, chosen.given)
        if isinstance(call.target, str):
            return Chosen(call.target, types, given)
        impl = put_in(call.target[0], chosen.types, chosen.given)
        if impl[0] == "Given":
            return None
        return Chosen(impl[1][call.target[1]], impl[2] + types, impl[3] + given)

    def methods(self, impl):
        """What a function that is not read may call of an impl."""
        if impl[0] == "Given":
            return
        for name in impl[1]:
            function = self.function(name)
            if function and (function.types, function.bounds) != (len(impl[2]), len(impl[3])):
                raise Bad(f"{name} may be called with types that are not known")
            yield Chosen(name, impl[2], impl[3])

    def is_ours(self, name):
        return name.split("::")[0] in self.crates

    def follow(self, chosen, chain, done):
        if chosen in chain:
            raise Bad("reaches itself: " + " -> ".join(each.name for each in [*chain[chain.index(chosen):], chosen]))
        if chosen.name not in self.functions:
            raise Bad(f"{chain[-1].name} calls {chosen.name}, which was not read")
        function = self.functions[chosen.name]
        if (function.types, function.bounds) != (len(chosen.types), len(chosen.given)):
            raise Bad(f"{chosen.name} is called with other types than it has")
        if len(chain) > LONGEST:
            raise Bad(f"no end is found of the calls from {chain[0].name} on")
        if chosen not in done:
            for called in sorted(self.targets(chosen)[0], key=repr):
                self.follow(called, (*chain, chosen), done)
            done.add(chosen)

    def bytes(self, chosen):
        """Each local on a place of its own, aligned to 8 bytes."""
        locals_ = put_in(tuple(self.functions[chosen.name].locals), chosen.types, chosen.given)
        return sum(rounded(measure(kind, self.shapes)[0], 8) for kind in locals_)

    def deepest(self, chosen):
        """Bytes of locals of the deepest chain from a function on, and its functions with their own."""
        if isinstance(chosen, str):
            chosen = Chosen(chosen, (), ())
        if chosen not in self.known:
            under = max(map(self.deepest, self.targets(chosen)[0]), key=lambda chain: (chain.size, chain.parts), default=Chain(0, ()))
            own = self.bytes(chosen)
            self.known[chosen] = Chain(own + under.size, ((chosen.name, own), *under.parts))
        return self.known[chosen]

    def unread(self, name):
        """What a function may call, directly or through others, that is not read."""
        found, seen, todo = set(), set(), [Chosen(name, (), ())]
        while todo:
            read, unread = self.targets(todo.pop())
            found |= unread
            todo.extend(read - seen)
            seen |= read
        return found

    def about(self):
        ours = sum(self.is_ours(name) for name in self.functions)
        read = f"source: {ours} functions and {len(self.functions) - ours} of the kit, none reaches itself; every call names its target"
        return read + (f"; of C: {', '.join(sorted(self.of_c))}" if self.of_c else "")


def show(source, name):
    size, parts = source.deepest(name)
    print(f"{name} {size}: " + " -> ".join(f"{each} {bytes_}" for each, bytes_ in parts))
    for each in sorted(source.unread(name)):
        print(f"    may reach {each}, which is not read")


def main():
    asked = argparse.ArgumentParser()
    asked.add_argument("-mir")
    asked.add_argument("-repository", default=".")
    asked.add_argument("crates", nargs="*")
    asked = asked.parse_args()
    try:
        if asked.mir:
            text = pathlib.Path(asked.mir).read_text(encoding="utf-8")
            shapes = {}
            is_linked = text.startswith("[")
            functions = [linked(*each, shapes) for each in json.loads(text)] if is_linked else [written("a::f", text, shapes)]
            source = Source(functions, shapes, {each.name.split("::")[0] for each in functions})
        else:
            source = read_crates(asked.repository, asked.crates)
        for name in source.roots:
            if name.split("::")[0] in asked.crates:
                show(source, name)
        print(source.about())
    except Bad as bad:
        sys.exit(f"source: {bad}")


if __name__ == "__main__":
    main()
