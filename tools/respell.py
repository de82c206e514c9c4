#!/usr/bin/env python3
"""Brings the repository's own antt names to the toolchain's spelling.

Words are in snake case, types and modules in upper camel case, `′` is `'`
(CONTRACT_STYLE.md, section Names). Run it at the repository's top; it rewrites
files in place, and a second run changes nothing. With `--report` it rewrites
nothing and prints old -> new for every name, and the names that would fall
together.

A name is respelled where it is defined (crates/*/specs and the lemma modules of
crates/*/proofs) and where it is cited: in antt files by what a file defines and
imports, in clauses, attributes and comments of .rt files, in the edits of
must-fail/, and in the backticks of README.md and docs/. Names from Rattle
source, of the kit's own libraries and those that Rattle makes (goals, Tie,
Statement, declared) keep their spelling, and so do the names that a function's
own proof (Proof.antt) gives to its steps.
"""
import os
import re
import sys
from collections import defaultdict

# ---- What the rules of spelling alone would not give

# folders and files of modules, in each crate's specs/ and proofs/
FOLDERS = {'steps': 'Steps', 'ledger': 'Ledger', 'promises': 'Promises'}

# (module, old name): a distinct name where the plain respelling falls together with another
DEFS = {
    # a lemma that would have its function's name
    ('bitmap.proofs.Finds', 'set-bits'): 'set_bits_lem',
    ('bitmap.proofs.Word', 'change-in'): 'change_in_lem',
    ('frames.proofs.StretchFacts', 'free-in-area'): 'free_in_area_lem',
    ('rules.proofs.Ledger.BootCall', 'declare-all'): 'declare_all_lem',
    ('rules.proofs.Ledger.Grants', 'same-grant'): 'same_grant_lem',
    ('rules.proofs.Ledger.Items', 'kept-as'): 'kept_as_lem',
    ('rules.proofs.Ledger.Marks', 'has-kind'): 'has_kind_lem',
    ('rules.proofs.Ledger.MoveOut', 'move-out'): 'move_out_lem',
    ('rules.proofs.Ledger.MovePage', 'is-page'): 'is_page_lem',
    ('rules.proofs.Ledger.PageKinds', 'kind-of'): 'kind_of_lem',
    ('rules.proofs.Ledger.PutCalls', 'free-ordinary'): 'free_ordinary_lem',
    ('rules.proofs.Placed', 'area-right'): 'area_right_lem',
    ('rules.proofs.Placed', 'vacant-at'): 'vacant_at_lem',
    ('rules.proofs.Promises.DeclareNumbers', 'above-limit'): 'above_limit_lem',
    ('rules.proofs.Promises.DeviceNumbers', 'bad-device'): 'bad_device_lem',
    ('rules.proofs.Promises.DeviceNumbers', 'not-owner'): 'not_owner_lem',
    ('rules.proofs.Promises.PageNumbers', 'bad-name'): 'bad_name_lem',
    ('rules.proofs.Promises.PageNumbers', 'put-fixed'): 'put_fixed_lem',
    ('rules.proofs.Promises.PageNumbers', 'put-movable'): 'put_movable_lem',
    ('rules.proofs.Promises.Pages', 'has-kind'): 'has_kind_lem',
    ('rules.proofs.Promises.PlaceTests', 'free-in-area'): 'free_in_area_lem',
    ('rules.proofs.Promises.PlaceTests', 'free-ordinary'): 'free_ordinary_lem',
    ('rules.proofs.Promises.PlaceTests', 'in-areas'): 'in_areas_lem',
    ('rules.proofs.Promises.Releases', 'can-leave'): 'can_leave_lem',
    ('rules.proofs.Promises.Shapes', 'areas-test'): 'areas_test_lem',
    ('rules.proofs.Promises.Taken', 'can-leave'): 'can_leave_lem',
    ('rules.proofs.Targets', 'first-target'): 'first_target_lem',
    ('rules.proofs.Targets', 'is-ordinary'): 'is_ordinary_lem',
    ('rules.proofs.Targets', 'is-target'): 'is_target_lem',
    ('setup.proofs.Plans', 'is-fixed'): 'is_fixed_lem',
    ('setup.proofs.Starts', 'memory-right'): 'memory_right_lem',
    ('szk.proofs.Refusals', 'told-short'): 'told_short_lem',
    # others that would have another's name, or a word that is taken
    ('device_calls.proofs.GrantOutcomes', 'has_room'): 'has_room_left',
    ('report.proofs.Ends', 'is-done'): 'report_is_done',
    ('report.proofs.Ends', 'is-short'): 'report_is_short',
    ('rules.proofs.Ledger.BitsSound', 'new'): 'new_bits',
    ('rules.proofs.Ledger.GrantCall', 'lies_in'): 'this_lies_in',
    ('rules.proofs.Ledger.GrantCall', 'new'): 'this_grant',
    ('rules.proofs.Ledger.Instance', 'other-words'): 'lists_but_for_words',
    ('rules.proofs.Ledger.ReleasedGrant', 'in-memory'): 'run_in_memory',
    ('rules.proofs.Promises.Boots', 'in-turn'): 'declares_in_turn',
}

# a field's name, in all records
FIELDS = {
}

# (file, old name): a local name that would hide a respelled one
LOCALS = {
}

RESERVED = set('ground assumption search grind simp omega record ruleset data open old new now result '
               'let in where elim module use pub abbrev unfoldable unfolding absurd rw as'.split())

PER_FUNCTION = ('Proof.antt', 'Answers.antt', 'Invariants.antt')


def per_function(path):
    return '/proofs/' in path and os.path.basename(path) in PER_FUNCTION



TOKEN = re.compile(r'--[^\n]*|"(?:[^"\\]|\\.)*"|[^\s(){}\[\],;."]+|\[\]|.', re.S)
NAME = re.compile(r"[a-zA-Z][\w'-]*$")
DECL = re.compile(r'^(\s*)((?:(?:abbrev|unfoldable|pub|private)\s+)*)(?:(record|data|ruleset)\s+)?'
                  r"([^\s(){}\[\],;.:]+(?:\s+[^\s(){}\[\],;.:]+)*?)\s*(:|\(|\{|$)(?=\s|\w|$)")
USE = re.compile(r'^\s*(?:pub\s+)?(?:ghost\s+)?use\s+([\w.\']+?)(?:\.\{([^}]*)\}|\s+as\s+([\w\']+))?\s*;?\s*$', re.M)


def snake(name):
    """lowerCamel and kebab to snake; a name with holes by its words."""
    name = name.replace('′', "'")
    if '◌' in name:
        return '◌'.join(snake(p) for p in name.split('◌'))
    if not NAME.match(name):
        return name
    s = name
    if s[0].islower():
        s = re.sub(r'(?<=[A-Z])([A-Z])(?=[a-z])', lambda m: '_' + m.group(1).lower(), s)
        s = re.sub(r'(?<=[a-z0-9])([A-Z])', lambda m: '_' + m.group(1).lower(), s)
        s = re.sub(r'(?<=[a-z])(?=\d+$)', '_', s) if re.search('[A-Z]', name) else s
        s = re.sub(r'_([A-Z])', lambda m: '_' + m.group(1).lower(), s)
    return s.replace('-', '_')


def upper(name):
    return ''.join(w[:1].upper() + w[1:] for w in snake(name).split('_'))


def read(path):
    with open(path, encoding='utf-8', newline='') as f:
        return f.read()


def walk(top, ends):
    for folder, dirs, files in os.walk(top):
        dirs[:] = sorted(d for d in dirs if d not in ('.git', '.rattle', 'target') and not d.startswith('.'))
        for f in sorted(files):
            if f.endswith(ends):
                yield os.path.join(folder, f).replace(os.sep, '/')


def module_of(path):
    """crates/rules/specs/steps/X.antt -> rules.specs.Steps.X"""
    parts = path[:-len('.antt')].split('/')[1:]
    return '.'.join(respell_folder(parts))


def respell_folder(parts):
    return [FOLDERS.get(p, p) if i == 2 and parts[1] in ('specs', 'proofs') else p for i, p in enumerate(parts)]


# ---- What the repository defines

class Module:
    def __init__(self, path):
        self.path = path
        self.name = module_of(path)
        self.defs = {}         # name -> kind: def, type, constructor
        self.fields = {}       # name -> record
        self.records = []      # (record, its fields in order)
        self.read(read(path))

    def read(self, text):
        lines = text.split('\n')
        inside = []            # (indent, 'record'/'data', name)
        i = 0
        while i < len(lines):
            line = re.sub(r'(^|\s)--.*', '', lines[i])
            i += 1
            if not line.strip():
                continue
            indent = len(line) - len(line.lstrip())
            while inside and inside[-1][0] >= indent:
                inside.pop()
            m = DECL.match(re.sub(r'^([^:(]*?)\s*\{ℓ[^}]*\}', r'\1', line))
            if not m:
                continue
            _, flags, kind, names, then = m.groups()
            names = names.split()
            if names[0] in ('use', 'mod', 'let', 'unfolding', 'module', 'open', 'infix', 'infixl', 'infixr', 'in', 'where') or any(n in ('λ', '=', '→', 'let', '↦', '|') for n in names):
                continue
            if kind in ('record', 'data'):
                self.defs[names[0]] = 'type'
                inside.append((indent, kind, names[0]))
                if kind == 'record':
                    self.records.append((names[0], []))
                continue
            if kind == 'ruleset':
                self.defs[names[0]] = 'def'
                continue
            if then != ':':
                continue
            if inside and inside[-1][1] == 'record':
                if 'pub' in flags:
                    for n in names:
                        self.fields[n] = inside[-1][2]
                        self.records[-1][1].append(n)
                continue
            if inside and inside[-1][1] == 'data':
                for n in names:
                    self.defs[n] = 'constructor'
                continue
            signature = line.split(':', 1)[1]
            while i < len(lines) and lines[i].strip() and len(lines[i]) - len(lines[i].lstrip()) > indent:
                signature += ' ' + re.sub(r'(^|\s)--.*', '', lines[i]).strip()
                i += 1
            for n in names:
                self.defs[n] = 'type' if re.search(r'(^|→|\s)Type 0\s*$', signature.strip()) else 'def'

    def new(self, name):
        if (self.name, name) in DEFS:
            return DEFS[self.name, name]
        if self.defs.get(name) == 'type' and name[0].islower() and NAME.match(name):
            return upper(name)
        if self.defs.get(name) == 'type':
            return name
        return snake(name)


def load():
    modules = {}
    for top in sorted(os.listdir('crates')):
        for part in ('specs', 'proofs'):
            for path in walk(f'crates/{top}/{part}', '.antt'):
                if not per_function(path):
                    m = Module(path)
                    modules[m.name] = m
    return modules


def full(path):
    """Rattle.rules.specs.steps.X -> rules.specs.Steps.X; None where the path is not the repository's."""
    if not path.startswith('Rattle.'):
        return None
    return '.'.join(respell_folder(path[len('Rattle.'):].split('.')))


class Scope:
    """What a file defines and imports."""

    def __init__(self, modules, text, own=None):
        self.map = {}          # bare name -> new
        self.from_ = {}        # bare name -> module
        self.foreign = set()   # names imported from elsewhere
        self.alias = {}        # alias -> module or None
        self.locals = set()    # names in lowerCamel that the file's own terms bind or cite
        for m in USE.finditer(text):
            path, names, alias = m.groups()
            mod = full(path)
            known = modules.get(mod)
            if alias is not None or names is None:
                self.alias[alias or path.split('.')[-1]] = known
                continue
            for item in names.split(','):
                item = item.strip()
                if not item:
                    continue
                first, _, then = item.partition(' as ')
                first, then = first.strip(), then.strip()
                if known is not None and (first in known.defs or first in known.fields):
                    self.from_[then or first] = known.name
                    self.map[then or first] = snake(then) if then and then[0].islower() else (then or known.new(first))
                elif known is not None:
                    self.map.setdefault(first, first)
                    self.foreign.add(then or first)
                else:
                    self.foreign.add(then or first)
        if own is not None:
            for n in own.defs:
                self.map[n] = own.new(n)
                self.from_[n] = own.name
                self.foreign.discard(n)


# ---- Respelling

def is_own_style(name):
    """A name in lowerCamel or kebab."""
    return bool(NAME.match(name)) and name[0].islower() and ('-' in name or bool(re.search('[A-Z]', name)))


class Speller:
    def __init__(self):
        self.modules = load()
        self.fields = {}       # every record's fields: old -> new
        self.defs = defaultdict(set)
        for m in self.modules.values():
            for f in m.fields:
                self.fields[f] = FIELDS.get(f, snake(f))
            for d in m.defs:
                self.defs[d].add(m.new(d))
        self.any = {}          # a definition's name where its module does not matter
        for d, news in self.defs.items():
            if len(news) == 1:
                self.any[d] = next(iter(news))
        # every respelled name: an older text may still have the old spelling of one
        self.news = {n for m in self.modules.values() for n in map(m.new, m.defs)} | set(self.fields.values())
        self.notes = []

    # paths of modules: in use lines, mod lines, prose and files' names
    def paths(self, text):
        text = re.sub(r'\b(Rattle\.\w+\.(?:specs|proofs)\.)(steps|ledger|promises)\b', lambda m: m.group(1) + FOLDERS[m.group(2)], text)
        text = re.sub(r'((?:^|[\s`(/])(?:\w+/)?(?:specs|proofs)/)(steps|ledger|promises)(?=[/.\s`,;:)]|$)', lambda m: m.group(1) + FOLDERS[m.group(2)], text, flags=re.M)
        return text

    def antt(self, path, text, note=True):
        own = None if per_function(path) else self.modules.get(module_of(path))
        scope = Scope(self.modules, text, own)
        if own is not None:
            scope.locals = {t for t in TOKEN.findall(text) if is_own_style(t) and '-' not in t}
        out = []
        tokens = TOKEN.findall(text)
        kinds = []
        used = defaultdict(set)      # new bare name -> old ones
        stack = []                   # what each open brace is: record or other
        last = ''                    # last token that is no space
        before = ''                  # the one before it
        line_start = True
        use_line = None
        indent = 0
        record_at = None             # indent of the record declaration that we are in
        pubs = False
        for k, t in enumerate(tokens):
            prev = tokens[k - 1] if k else '\n'
            new = t
            if t.startswith('--') and (prev.isspace() or k == 0):
                out.append(self.comment(t, scope))
                last_space = False
                continue
            if t.startswith('"'):
                out.append(t)
                before, last = last, t
                continue
            if t == '\n':
                use_line = None if not stack else use_line
                line_start = True
                indent = 0
                out.append(t)
                continue
            if t.isspace():
                if line_start:
                    indent += 1
                out.append(t)
                continue
            if line_start:
                line_start = False
                first_indent = indent
                if record_at is not None and first_indent <= record_at:
                    record_at = None
                pubs = t == 'pub'
                if t == 'use' or (t == 'pub' and tokens[k + 2:k + 3] == ['use']):
                    use_line = ''
                m = re.match(r'(?:pub )?record\s', ''.join(tokens[k:k + 4]))
                if m and not stack:
                    record_at = first_indent
            if t in '{([':
                stack.append('record' if t == '{' and last == 'record' else 'other')
            elif t in '})]':
                if stack:
                    stack.pop()
            elif use_line is not None:
                if prev == '.' or last in ('use', 'as') and not stack:
                    use_line = use_line + '.' + t if prev == '.' else t
                    if last == 'use':
                        use_line = t
                elif stack and NAME.match(t) and t != 'as':
                    known = self.modules.get(full(use_line.strip('.')) or '')
                    if known is not None:
                        if last == 'as':
                            new = LOCALS.get((path, t), snake(t) if t[0].islower() else t)
                        elif t in known.defs or t in known.fields:
                            new = known.new(t)
                elif stack and '◌' in t:
                    known = self.modules.get(full(use_line.strip('.')) or '')
                    if known is not None:
                        new = snake(t)
            elif prev == '.' and k >= 2 and not tokens[k - 2].isspace():
                # a projection, or a name of another module
                head = k - 2
                chain = [tokens[k - 2]]
                if chain[0] in scope.alias and (k < 4 or tokens[k - 3] != '.'):
                    known = scope.alias[chain[0]]
                    new = known.new(t) if known is not None and t in known.defs else t
                elif t in self.fields:
                    new = self.fields[t]
            elif NAME.match(t) or '◌' in t:
                nxt = next((x for x in tokens[k + 1:k + 4] if not x.isspace()), '')
                if stack and stack[-1] == 'record' and last in ('{', ';') and nxt == '=':
                    new = self.fields.get(t, t)
                elif record_at is not None and pubs and (last == 'pub' or before == 'pub') and first_indent > record_at and not stack and t in (own.fields if own else ()):
                    new = self.fields[t]
                    used[new].add(t)
                elif (path, t) in LOCALS:
                    new = LOCALS[path, t]
                    used[new].add(t)
                elif t in scope.map:
                    new = scope.map[t]
                    used[new].add(t)
                elif record_at is not None and own is not None and t in own.fields:
                    new = self.fields[t]
                    used[new].add(t)
                elif t in scope.foreign:
                    used[t].add(t)
                elif own is not None and is_own_style(t):
                    new = snake(t)
                    used[new].add(t)
                else:
                    used[t].add(t)
            out.append(new)
            before, last = last, t
        for n in scope.foreign:
            used[n].add(n)
        if note:
            for new, olds in sorted(used.items()):
                if len(olds) > 1:
                    self.notes.append(f'together: {path}: {", ".join(sorted(olds))} -> {new}')
                if new in RESERVED and olds != {new}:
                    self.notes.append(f'reserved: {path}: {", ".join(sorted(olds))} -> {new}')
        return self.paths(''.join(out))

    def word(self, t, scope, prose):
        """A name in prose: `prose` where it stands bare, and must look like a name."""
        if scope is not None and t in scope.map and (not prose or is_own_style(t)):
            return scope.map[t]
        if scope is not None and t in scope.locals:
            return snake(t)
        if is_own_style(t):
            if t in self.any and (not prose or re.search('[A-Z]', t) or '-' in t):
                return self.any[t]
            if t in self.fields:
                return self.fields[t]
            if re.search('[A-Z]', t) and snake(t) in self.news:
                return snake(t)
        return t

    def names_in(self, text, scope, prose):
        return re.sub(r"(?<![\w'/.◌-])[a-z][\w'′]*(?:-[\w'′]+)*(?![\w'/◌-]|\.(?:rt|antt|rs|md|edit|c|h|out|rec|txt))|(?<=[\w)`]\.)[a-z][\w'′]*(?:-[\w'′]+)*|(?<= \.)[a-z][\w'′]*(?:-[\w'′]+)*|(?<=`\.)[a-z][\w'′]*(?:-[\w'′]+)*",
                      lambda m: self.word(m.group(0), scope, prose), text)

    def comment(self, text, scope):
        # the list of names at a module's head, what stands in backticks, and what looks like a name
        head = re.match(r'(--\s{3,})(\S.*?)(\s{2,}.*|)$', text)
        if head and scope is not None:
            return head.group(1) + self.names_in(head.group(2), scope, False) + self.comment_text(head.group(3), scope)
        return self.comment_text(text, scope)

    def comment_text(self, text, scope):
        parts = re.split(r'(`[^`]*`)', text)
        return ''.join(self.names_in(p, scope, not p.startswith('`')) for p in parts)

    def rust(self, path, text):
        scope = Scope(self.modules, text)
        used = defaultdict(set)

        def clause(m):
            t = m.group(0)
            if t in scope.map:
                used[scope.map[t]].add(t)
                return scope.map[t]
            if re.search('[A-Z]', t):
                if t in self.fields and text[m.start() - 1:m.start()] == '.':
                    return self.fields[t]
                if t in self.any:
                    return self.any[t]
                if t in self.fields:
                    return self.fields[t]
            return t

        out = []
        changed = {o: n for o, n in scope.map.items() if o != n}
        for line in re.split(r'(?<=\n)', text):
            m = re.match(r'\s*ghost use (Rattle\.[\w.]+)\.\{([^}]*)\}', line)
            if m:
                known = self.modules.get(full(m.group(1)))
                if known is not None:
                    names = ', '.join(known.new(n.strip()) if n.strip() in known.defs else n.strip() for n in m.group(2).split(','))
                    line = line[:m.start(2)] + names + line[m.end(2):]
            elif re.match(r'\s*//', line):
                line = self.comment_text(line, scope)
            elif re.match(r'\s*(pub |async |unsafe |const |extern )*\s*ghost |\s*(requires|ensures|invariant|decreases|owns|also_owns|assert|lemma|upholds|leaves)\b|\s*#\[', line):
                line = re.sub(r"(?<![\w'\"])[a-z][\w'′]*(?:-[\w'′]+)*", clause, line)
            else:
                parts = re.split(r'("(?:[^"\\]|\\.)*")', line)
                line = ''.join(p if p.startswith('"') else re.sub(r'\b[a-z]+\w*[a-z0-9][A-Z]\w*', clause, p) for p in parts)
            out.append(line)
        self.rust_hidden(path, text, changed)
        return self.paths(''.join(out))

    def rust_hidden(self, path, text, changed):
        code = re.sub(r'//.*', '', text)
        for old, new in sorted(changed.items()):
            if re.search(r'\b(let (mut )?)?' + re.escape(new) + r'\s*:(?!:)|\blet (mut )?' + re.escape(new) + r'\b', code):
                for f in re.split(r'\n(?=\s*(?:pub(?:\([^)]*\))? )?(?:const |unsafe |extern "C" )*fn )', code):
                    if re.search(r'\b' + re.escape(old) + r'\b', f) and re.search(r'\b' + re.escape(new) + r'\s*:(?!:)|\blet (mut )?' + re.escape(new) + r'\b', f) and 'fn ' in f:
                        head = f.strip().split('\n')[0]
                        self.notes.append(f'hidden: {path}: {old} -> {new} in {head[:70]}')

    def edit(self, path, text):
        crate = '/'.join(path.split('/')[:2])
        m = re.search(r'^file: (\S+)', text, re.M)
        scope, own = None, None
        if m:
            target = crate + '/' + m.group(1)
            target = target if os.path.exists(target) else crate + '/' + '/'.join(respell_folder(['x'] + m.group(1).split('/'))[1:])
            if os.path.exists(target):
                own = self.modules.get(module_of(target)) if target.endswith('.antt') and not per_function(target) else None
                scope = Scope(self.modules, read(target), own)
        news = {snake(t) for t in TOKEN.findall(read(target))} | set(scope.map.values()) if scope else set()
        rust = m and m.group(1).endswith('.rt')

        def word(w):
            t = w.group(0)
            dot = w.start() and w.string[w.start() - 1] == '.'
            if dot:
                return self.fields.get(t, self.fields.get(snake(t), t)) if not rust or is_own_style(t) else t
            if scope and t in scope.map and (not rust or is_own_style(t)):
                return scope.map[t]
            if is_own_style(t):
                if t in self.any and (not rust or '-' not in t):
                    return self.any[t]
                if re.search('[A-Z]', t) and (snake(t) in news or snake(t) in self.news):
                    return snake(t)
                if t in self.fields:
                    return self.fields[t]
                if own is not None and '-' in t:
                    return snake(t)
            return t

        out = []
        for line in re.split(r'(?<=\n)', text):
            if line.startswith(('old:', 'new:')):
                line = line[:4] + re.sub(r"(?<![\w'\"◌-])[a-z][\w'′]*(?:-[\w'′]+)*", word, line[4:])
            elif line.startswith('#'):
                line = self.comment_text(line, scope)
            out.append(line)
        return self.paths(''.join(out))

    def prose(self, path, text):
        parts = re.split(r'(`[^`\n]*`)', text)
        return self.paths(''.join(self.names_in(p, None, False) if p.startswith('`') else p for p in parts))

    def files(self):
        for path in walk('crates', '.antt'):
            yield path, self.antt
        for path in walk('crates', '.rt'):
            yield path, self.rust
        for path in walk('crates', '.edit'):
            if '/must-fail/' in path:
                yield path, self.edit
        for path in ['README.md'] + list(walk('docs', '.md')) + list(walk('crates', '.md')):
            if os.path.exists(path):
                yield path, self.prose


def lib_lines(path, text):
    """`pub mod steps` where a module's list names its parts."""
    if re.match(r'crates/\w+/(specs|proofs)/Lib\.antt$', path):
        text = re.sub(r'\b(mod )(steps|ledger|promises)\b', lambda m: m.group(1) + FOLDERS[m.group(2)], text)
    return text


def move():
    for crate in sorted(os.listdir('crates')):
        for part in ('specs', 'proofs'):
            top = f'crates/{crate}/{part}'
            if not os.path.isdir(top):
                continue
            for old, new in FOLDERS.items():
                for end in ('', '.antt'):
                    if old + end in os.listdir(top):
                        os.rename(f'{top}/{old}{end}', f'{top}/{new}{end}')


def report(s):
    total = 0
    for name, m in sorted(s.modules.items()):
        for d in m.defs:
            if m.new(d) != d:
                total += 1
                print(f'{name}: {d} -> {m.new(d)}')
    for f, n in sorted(s.fields.items()):
        if f != n:
            total += 1
            print(f'field: {f} -> {n}')
    print(f'{total} names')
    # in one module
    for name, m in sorted(s.modules.items()):
        seen = defaultdict(set)
        for d in m.defs:
            seen[m.new(d)].add(d)
        for new, olds in seen.items():
            if len(olds) > 1:
                print(f'in one module: {name}: {", ".join(sorted(olds))} -> {new}')
            if new in RESERVED:
                print(f'reserved: {name}: {new}')
        cases = defaultdict(set)
        for new in seen:
            cases[new.lower()].add(new)
        for group in cases.values():
            if len(group) > 1 and not group <= set(m.defs):
                print(f'only in case: {name}: {", ".join(sorted(group))}')
        for record, fields in m.records:
            seen = defaultdict(set)
            for f in fields:
                seen[s.fields[f]].add(f)
            for new, olds in seen.items():
                if len(olds) > 1:
                    print(f'in one record: {name}.{record}: {", ".join(sorted(olds))} -> {new}')
    seen = defaultdict(set)
    for name, m in s.modules.items():
        for d in m.defs:
            seen[m.new(d)].add((d, name))
    for new, olds in sorted(seen.items()):
        if len({o for o, _ in olds}) > 1:
            print(f'in two modules: {new}: ' + '; '.join(f'{o} ({n})' for o, n in sorted(olds)))


def main():
    s = Speller()
    results = []
    for path, how in s.files():
        text = read(path)
        results.append((path, text, lib_lines(path, how(path, text))))
    if '--report' in sys.argv[1:]:
        report(s)
        for n in s.notes:
            print(n)
        return
    for path, text, new in results:
        if text != new:
            with open(path, 'w', encoding='utf-8', newline='') as f:
                f.write(new)
    move()


if __name__ == '__main__':
    main()
