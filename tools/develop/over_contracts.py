#!/usr/bin/env python3
"""Checks a package over the contracts of those below it, where building these would take hours.

usage: over_contracts.py copy COPY PACKAGE..      a copy of the repository in which all other packages have contracts alone
       over_contracts.py check COPY PACKAGE [WORD..]  checks a package there; words are those of `rattle check`, as --only MODULE or --test

In the copy the body of each function outside of the named packages is `unreachable!()`, and its proof one hole, so a function of the package is
right where its line reads `no holes`, or names no hole but `unreachable-requires` of others. It is no verdict: only the gate's is. Folders of proofs
that name no function are removed, and holes that are missing are written, and then it is checked again. Ask for modules by --only: without it the
functions of the whole copy are checked. Built libraries in the folder that LIBS names, as NAME/NAME.rlib, are taken in place of sources.
"""
import os, re, shutil, subprocess, sys


ROOT = os.path.dirname(os.path.dirname(os.path.dirname(os.path.abspath(__file__))))
KIT = os.path.dirname(os.path.dirname(os.path.realpath(shutil.which('rt') or 'rt')))
HOLE = 'use Rattle.%s.proofs.%s.Goals as goal\n\npub unreachable-requires : goal.unreachable-requires\nunreachable-requires c = ?\n'


def skip(text, i):
    """The place behind a comment, string or character at i, or i."""
    if text.startswith("//", i):
        j = text.find("\n", i)
        return len(text) if j < 0 else j
    if text.startswith("/*", i):
        return text.index("*/", i) + 2
    m = re.compile(r'b?"(?:[^"\\]|\\.)*"', re.S).match(text, i)
    if m: return m.end()
    m = re.compile(r"b?'(?:[^'\\]|\\.[^']*)'").match(text, i)
    if m: return m.end()
    return i


def balanced(text, i, antt=False):
    """The place behind the brace that closes the one at i."""
    depth = 0
    while i < len(text):
        if not antt:
            j = skip(text, i)
            if j != i:
                i = j; continue
        c = text[i]
        if c == "{": depth += 1
        elif c == "}":
            depth -= 1
            if depth == 0: return i + 1
        i += 1
    raise ValueError("brace")


FN = re.compile(r"\bfn\s+[A-Za-z_]\w*\s*[<(]")
CLAUSE_WORD = re.compile(r"(?:requires\*?|ensures\*?|ghost)\b")


CLAUSE = re.compile(r"\s*(?:requires\*?|ensures\*?|ghost)\b[^{;]*?\{")


IMPL = re.compile(r"impl\b")
MOD = re.compile(r"mod\s+(\w+)\s*\{")
TRAIT = re.compile(r"trait\s+(\w+)")


def strip_generics(s):
    """A type without what stands between angles."""
    out, d = "", 0
    for c in s:
        if c == "<": d += 1
        elif c == ">": d -= 1
        elif d == 0: out += c
    return out


def impl_name(head):
    """The name under which proofs find the methods of an impl: of its type, and of its trait behind it."""
    head = re.sub(r"->", "", head)
    head = strip_generics(head[4:].strip())
    head = re.split(r"\bwhere\b", head)[0].strip()
    parts = [p.strip() for p in re.split(r"\bfor\b", head)]
    last = lambda s: re.sub(r"\W", "", s.split("::")[-1].strip().lstrip("&").replace("mut ", ""))
    whole = last(parts[1]) + last(parts[0]) if len(parts) == 2 else last(parts[0])
    # An impl for a type of the language, as i32, has a name that begins with a capital.
    return whole[:1].upper() + whole[1:]


def stub(text, names):
    """A file whose functions have no bodies; their names, with those of impls, traits and modules around, are added to a list."""
    out, i = [], 0
    last = 0
    stack = []
    while i < len(text):
        j = skip(text, i)
        if j != i:
            i = j; continue
        while stack and i >= stack[-1][0]: stack.pop()
        word = i == 0 or not (text[i-1].isalnum() or text[i-1] == "_")
        if word and text[i] == "i" and IMPL.match(text, i) and text[i:i+5] != "impl(" :
            k = text.index("{", i)
            stack.append((balanced(text, k), impl_name(text[i:k]))); i = k + 1; continue
        if word and text[i] == "t" and (tm := TRAIT.match(text, i)):
            k = text.index("{", i)
            stack.append((balanced(text, k), tm[1])); i = k + 1; continue
        if word and text[i] == "m" and (mm := MOD.match(text, i)):
            stack.append((balanced(text, mm.end() - 1), mm[1])); i = mm.end(); continue
        m = FN.match(text, i) if word and text[i] == "f" else None
        if not m:
            # antt text in ghost members may hold quotes; skip ghost items whole
            g = re.compile(r"ghost\s+(?:use|\w+)[^;{]*[;{]").match(text, i) if word and text[i] == "g" else None
            if g:
                if text[g.end()-1] == "{":
                    i = balanced(text, g.end()-1, True)
                else:
                    i = g.end()
                continue
            i += 1; continue
        # signature: up to a clause, `{` or `;` at depth 0
        k, depth = m.end() - 1, 0
        while True:
            j = skip(text, k)
            if j != k: k = j; continue
            c = text[k]
            if c in "([": depth += 1
            elif c in ")]": depth -= 1
            elif depth == 0 and c in "{;": break
            elif depth == 0 and CLAUSE_WORD.match(text, k) and not (text[k-1].isalnum() or text[k-1] == "_"): break
            k += 1
        # clauses
        while True:
            c = CLAUSE.match(text, k)
            if c and text[k:c.end()].strip() != "{":
                k = balanced(text, c.end() - 1, True)
                continue
            w = re.compile(r"(?:\s|//[^\n]*\n)+").match(text, k)
            if w and CLAUSE.match(text, w.end()):
                k = w.end(); continue
            if w: k = w.end()
            break
        if k < len(text) and text[k] == ";":
            i = k + 1; continue
        if text[k] != "{":
            raise ValueError(f"no body: {text[m.start():m.start()+80]!r} at {text[k:k+40]!r}")
        end = balanced(text, k)
        if re.search(r"\bconst\s+$", text[:m.start()]):
            i = end; continue
        names.append([*[s[1] for s in stack], re.match(r"fn\s+(\w+)", m[0])[1]])
        out.append(text[last:k])
        out.append("{\n    unreachable!()\n}")
        last = end
        i = end
    out.append(text[last:])
    text = "".join(out)
    text = re.sub(r"[ \t]*#\[cycle\([^)]*\)\]\n(?=(?:[ \t]*(?:#\[|//)[^\n]*\n)*[ \t]*(?:pub(?:\([^)]*\))? )?(?:const )?fn )", "", text)
    text = re.sub(r"[ \t]*#\[tactic\([^\]]*unfolding[^\]]*\]\n", "", text)
    return text


def write_hole(copy, crate, path):
    """Writes the hole that stands for a function's proof, where there is none."""
    folder = os.path.join(copy, 'crates', crate, 'proofs', *path)
    if os.path.isfile(os.path.join(folder, 'Answers.antt')):
        return False
    os.makedirs(folder, exist_ok=True)
    with open(os.path.join(folder, 'Answers.antt'), 'w') as out:
        out.write(HOLE % (crate, '.'.join(path)))
    return True


def make_copy(copy, keep):
    shutil.rmtree(copy, ignore_errors=True)
    os.makedirs(os.path.join(copy, 'crates'))
    for name in ('crates.txt', 'HANDLES'):
        shutil.copy(os.path.join(ROOT, name), copy)
    for crate in sorted(os.listdir(os.path.join(ROOT, 'crates'))):
        folder = os.path.join(copy, 'crates', crate)
        shutil.copytree(os.path.join(ROOT, 'crates', crate), folder, ignore=shutil.ignore_patterns('out', 'must-fail', 'data'))
        if crate in keep:
            continue
        proofs = os.path.join(folder, 'proofs')
        for it in os.listdir(proofs) if os.path.isdir(proofs) else []:
            shutil.rmtree(os.path.join(proofs, it), ignore_errors=True)
        for at, _, files in os.walk(os.path.join(folder, 'src')):
            for path in (os.path.join(at, it) for it in files if it.endswith('.rt')):
                names = []
                with open(path) as found:
                    text = stub(found.read(), names)
                with open(path, 'w') as out:
                    out.write(text)
                module = os.path.relpath(path, os.path.join(folder, 'src'))[:-3].split('/')
                for name in names:
                    write_hole(copy, crate, [*([] if module[-1] in ('lib', 'main') else module), *name])


def words_of(copy, crate):
    """The words by which `rattle check` is given what stands below a package."""
    listed = {}
    with open(os.path.join(copy, 'crates.txt')) as found:
        for line in found:
            name, colon, rest = line.partition(':')
            if colon and not line.startswith('#'):
                listed[name.strip()] = rest.split()
    below, libs = [], os.environ.get('LIBS', '')

    def visit(name):
        for it in listed[name]:
            if it in listed and it not in below:
                visit(it)
                below.append(it)

    visit(crate)
    kit_of = lambda name: ['std'] + [it for it in listed[name] if it not in listed]
    built = set()
    for it in below:
        if libs and os.path.isfile(os.path.join(libs, it, it + '.rlib', 'format')) and all(d in built for d in listed[it] if d in listed):
            built.add(it)
    sources = [it for it in below if it not in built]
    kit = dict.fromkeys([*kit_of(crate), *sorted({'core', *(k for it in sources for k in kit_of(it))} if sources else ())])
    words = [w for name in kit for w in ('--extern', '%s=%s/rlibs/%s.rlib' % (name, KIT, name))] + ['-L', 'dependency=%s/rlibs' % KIT]
    needed = {*listed[crate], *(d for it in sources for d in listed[it])}
    for it in built:
        place = os.path.join(libs, it)
        words += ['--extern', '%s=%s/%s.rlib' % (it, place, it)] * (it in needed) + ['-L', 'dependency=' + place]
    for it in sources:
        uses = dict.fromkeys(['core', *kit_of(it), *(d for d in listed[it] if d in listed)])
        words += ['--lib', '%s:%s=%s/crates/%s/src/lib.rt' % (it, ','.join(uses), copy, it)]
    return words


def check(copy, crate, more):
    folder = os.path.join(copy, 'crates', crate)
    top = 'src/main.rt' if os.path.isfile(os.path.join(folder, 'src/main.rt')) else 'src/lib.rt'
    kept = os.path.join(copy, 'incremental', crate)
    os.makedirs(kept, exist_ok=True)
    words = ['--crate-name', crate, top, *words_of(copy, crate), '--antt-project', KIT + '/rattle/logic/antt-project.json']
    words += ['--logic-built', KIT + '/logic_built', '--incremental', kept, '--links', crate + '=', '--allow-holes', '--jobs', '1', *more]
    for _ in range(4):
        ran = subprocess.run([KIT + '/bin/rattle', 'check', *words], cwd=folder, text=True, errors='replace', stdout=subprocess.PIPE,
                             stderr=subprocess.STDOUT)
        wrong = set(re.findall(r'help: delete the folder `([^`]*)`', ran.stdout))
        lacking = {it for line in ran.stdout.split('\n') if ': no proof' in line for it in re.findall(r'`([a-z]\w*(?:::\w+)+)`', line)}
        lacking |= set(re.findall(r'^fn ([a-z]\w*(?:::\w+)+): no proof: expected answers', ran.stdout, re.M))
        for it in wrong:
            shutil.rmtree(os.path.join(folder, it) if not os.path.isabs(it) else it, ignore_errors=True)
        # A whole impl has no proof of its own, so its name, which begins with a capital, wants no hole.
        holes = [it for it in sorted(lacking) if not it.startswith(crate + '::') and it.split('::')[-1][0].islower()]
        written = [it for it in holes if write_hole(copy, it.split('::')[0], it.split('::')[1:])]
        if not (wrong or written):
            break
    print(ran.stdout, end='')
    return ran.returncode


if __name__ == '__main__':
    if len(sys.argv) > 3 and sys.argv[1] == 'copy':
        make_copy(os.path.abspath(sys.argv[2]), sys.argv[3:])
    elif len(sys.argv) > 3 and sys.argv[1] == 'check':
        sys.exit(check(os.path.abspath(sys.argv[2]), sys.argv[3], sys.argv[4:]))
    else:
        sys.exit(__doc__)
