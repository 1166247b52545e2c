"""Lists the places of the code that may still have an older form: `python3 tools/places.py [COMMIT]`, the work tree without one.

It goes by the look of the text, so each list holds candidates to be read; docs/DESIGN-PASS.md says what was found in them."""
import collections, io, os, re, subprocess, sys, tarfile

TESTS = ('crates/cases/', 'crates/columncases/')
KEYWORDS = set('as break const continue crate else enum false fn for if impl in let loop match mod move mut pub ref return self Self static struct super trait true type unsafe use where while'.split())


def sources(commit):
    if commit:
        data = subprocess.run(['git', 'archive', commit, 'crates'], capture_output=True, check=True).stdout
        with tarfile.open(fileobj=io.BytesIO(data)) as tar:
            for m in tar.getmembers():
                if m.isfile():
                    yield m.name, tar.extractfile(m).read().decode()
    else:
        for folder, _, names in os.walk('crates'):
            if '/out' not in folder:
                for name in names:
                    path = os.path.join(folder, name)
                    if path.endswith(('.rt', '.antt')):
                        yield path, open(path).read()


def block(lines, i):
    """The lines of the block that begins at line i."""
    depth, out = 0, []
    for line in lines[i:]:
        out.append(line)
        depth += line.count('{') - line.count('}')
        if depth == 0 and '{' in ''.join(out):
            break
    return out


def functions(text):
    """Each function as (line, name, head, body): the head has the clauses."""
    lines = text.split('\n')
    for i, line in enumerate(lines):
        m = re.match(r'\s*(?:pub(?:\([a-z]+\))? )?(?:final )?fn (\w+)', line)
        if not m:
            continue
        indent = len(line) - len(line.lstrip())
        head, body, j = [line], [], i
        if not line.rstrip().endswith(('{', '}', ';')):
            j += 1
            while j < len(lines) and not re.match(r' {%d}\{' % indent, lines[j]) and not lines[j].rstrip().endswith(';'):
                head.append(lines[j])
                j += 1
        if j < len(lines) and '{' in lines[j] and not lines[j].rstrip().endswith(';'):
            body = block(lines, j)
        yield i + 1, m.group(1), head, body


def shape(body):
    """A body with its names and numbers made alike."""
    seen = {}
    tokens = re.findall(r"\w+|[^\s\w]", re.sub(r'//.*', '', '\n'.join(body)))
    return ' '.join(t if t in KEYWORDS else 'N' if t[0].isdigit() else seen.setdefault(t, f'x{len(seen)}') if re.match(r'\w', t) else t for t in tokens)


def main():
    files = sorted(sources(sys.argv[1] if len(sys.argv) > 1 else None))
    code = [(p, t) for p, t in files if p.endswith('.rt') and '/src/' in p and not p.startswith(TESTS)]
    found = collections.defaultdict(list)

    def each_line(point, pattern):
        for path, text in code:
            for n, line in enumerate(text.split('\n'), 1):
                if re.search(pattern, line) and not re.match(r'\s*//', line) and 'ensures' not in line and 'ghost' not in line:
                    found[point].append(f'{path}:{n}: {line.strip()[:100]}')

    each_line('1a own enums', r'^\s*(pub(\(\w+\))? )?enum ')
    each_line('1b sentinels and defaults by hand', r'UNNUMBERED|else \{ 0 \}|^\s*return 0;|^\s+0$')
    each_line('1c numbers for kinds', r'\b(flag|mark|sign|marks\[[^]]*\])\s*(==|<|>)\s*\d')
    each_line('1d None and Err passed on by hand', r'None => None|None => Err|Err\(_\) => |return None;|else \{$|else \{ return')
    each_line('3a while and loop', r"^\s*('\w+: )?(while|loop)\b")
    each_line('4a 1 for true, 0 for false', r'\{ 1 \} else')
    each_line('4b conversions and printing by hand', r'fn (refusal|same|print_\w+|to_\w+)\b')
    each_line('6 arrays in types', r'^\s+(pub(\(\w+\))? )?\w+: \[\w+(<\w+>)?; ')
    each_line('7 tables of functions', r'\bdyn |: fn\(|\[fn\(')
    twins, repeated, together = collections.defaultdict(list), collections.defaultdict(set), collections.defaultdict(set)
    for path, text in code:
        lines = text.split('\n')
        for n, line in enumerate(lines, 1):
            m = re.match(r'\s*for (?:\()?(\w+)(?:, \w+\))? in [^{]*', line)
            if not m:
                continue
            body = '\n'.join(block(lines, n - 1)[1:-1])
            if '..' in line and re.search(r'\[[^]]*\b%s\b[^]]*\]' % m.group(1), body):
                found['3b ranges that index'].append(f'{path}:{n}: {line.strip()}')
            elif re.fullmatch(r'\s*if [^{]*\{\s*return [^;]*;\s*\}\s*', body) or re.fullmatch(r'\s*\w+ = [^;]*\b\w+[^;]*;\s*', body):
                found['3c loops that only test, find or fold'].append(f'{path}:{n}: {line.strip()}')
        for n, name, head, body in functions(text):
            if len(body) > 2:
                twins[shape(body)].append(f'{path}:{n} {name}')
            for clause in re.findall(r'requires(?: \w+)? \{ (.*) \}$', '\n'.join(head), re.M):
                repeated[clause].add(f'{path}:{n}')
            params = re.findall(r'(\w+): ', ' '.join(re.sub(r'(requires|ensures).*', '', h) for h in head))
            for a in range(len(params) - 2):
                together[tuple(params[a:a + 3])].add(f'{path}:{n}')
        for m in re.finditer(r'struct (\w+)[^{;]*\{(.*?)\n\}', text, re.S):
            names = tuple(re.findall(r'^\s*(?:pub(?:\(\w+\))? )?(\w+):', re.sub(r'//.*|ghost .*', '', m.group(2)), re.M))
            if len(names) > 1:
                twins[('struct',) + names].append(f'{path} struct {m.group(1)}')
    found['2 twins by shape'] = [' = '.join(v) for v in twins.values() if len(v) > 1]
    found['5a facts asked of callers in three places or more'] = [f'{len(v)} x {k}' for k, v in sorted(repeated.items(), key=lambda x: -len(x[1])) if len(v) > 2]
    found['5b parameters that travel together'] = [f'{len(v)} x {", ".join(k)}' for k, v in sorted(together.items(), key=lambda x: -len(x[1])) if len(v) > 2]
    for point in sorted(found):
        print(f'{point}: {len(found[point])}')
        for place in found[point]:
            print('    ' + place)
    print('code', sum(t.count('\n') for _, t in code), 'proof files', sum('/proofs/' in p for p, _ in files if p.endswith('.antt')), 'proof lines', sum(t.count('\n') for p, t in files if '/proofs/' in p and p.endswith('.antt')))


main()
