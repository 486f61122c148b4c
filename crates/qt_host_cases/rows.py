#!/usr/bin/env python3
"""Writes stdin, the rows of the cases, and stdout, the answers that are wanted: the tables below, and the rules of the top call
(one put a line, one call of put for a fault line, one fetch of the named text with its bound). Run it in the crate's folder."""

BOUND = 1048577
HEAD = 'OPENQASM 3.0;\ninclude "stdgates.inc";\n'
COIN = HEAD + 'qubit[1] q;\nbit[1] c;\nh q[0];\nc[0] = measure q[0];\n'
INTERFERENCE = HEAD + 'qubit[1] q;\nbit[1] c;\nh q[0];\nt q[0];\nh q[0];\nc[0] = measure q[0];\n'
NOTHING_DONE = HEAD + 'qubit[2] q;\nbit[2] c;\n'
BELL = HEAD + 'qubit[2] q;\nbit[2] c;\nh q[0];\ncx q[0], q[1];\nc[0] = measure q[0];\nc[1] = measure q[1];\n'
FIVE_QUBITS = HEAD + 'qubit[5] q;\nbit[1] c;\nh q[0];\nc[0] = measure q[0];\n'
THREE_LINES = 'qubit q;h q;end;'
COIN_REPORT = 'c=0 (1+0r)/2^1\nc=1 (1+0r)/2^1\ntotal (1+0r)/2^0\n'

# the words, the text of `coin.qasm`, the status, and what goes to the two sinks
CALLS = [
    ('run coin.qasm', COIN, 0, COIN_REPORT, ''),
    ('run coin.qasm', INTERFERENCE, 0, 'c=0 (2+1r)/2^2\nc=1 (2-1r)/2^2\ntotal (1+0r)/2^0\n', ''),
    ('run coin.qasm', NOTHING_DONE, 0, 'c=00 (1+0r)/2^0\ntotal (1+0r)/2^0\n', ''),
    ('run coin.qasm', BELL, 0, 'c=00 (1+0r)/2^1\nc=11 (1+0r)/2^1\ntotal (1+0r)/2^0\n', ''),
    ('run coin.qasm', FIVE_QUBITS, 1, '', 'E0 coin.qasm form\n'),
    ('run coin.qasm', '', 1, '', 'E0 coin.qasm form\n'),
    ('run other.qasm', COIN, 4, '', 'S1 shelf other.qasm\n'),
    # the shelf has no other text, so no include is fetched
    ('format coin.qasm', 'OPENQASM 3;const int n=0x1F;bit[4] b="0_1_01";', 0,
     'OPENQASM 3;\nconst int n = 31;\nbit[4] b = "0101";\n', ''),
    ('format coin.qasm', '', 0, '', ''),
    ('format coin.qasm', 'qubit[2]q;//x\nif(true){x q[0];}', 0, 'qubit[2] q;\nif (true) {\n  x q[0];\n}\n', ''),
    ('format coin.qasm', COIN, 0, COIN, ''),
    ('format coin.qasm', "include 'gates.inc';g q;", 0, 'include "gates.inc";\ng q;\n', ''),
    ('run coin.qasm', 'bit \u03bc;', 1, '', 'E3 coin.qasm:1:5 token\n'),
    ('run coin.qasm', HEAD + 'qubit q;\nh q', 1, '', 'E4 coin.qasm:4:4 syntax\n'),
    ('format coin.qasm', HEAD + 'float f;\n', 1, '', 'E6 coin.qasm:3:1 profile float\n'),
    ('format coin.qasm', 'qubit q;\nh q', 1, '', 'E4 coin.qasm:2:4 syntax\n'),
    ('format coin.qasm', 'int i; i = ' + '(' * 74 + '1', 1, '', 'E5 coin.qasm:1:77 nest\n'),
    ('format coin.qasm', 'h q; /* not closed', 1, '', 'E3 coin.qasm:1:6 token\n'),
    ('run coin.qasm', HEAD + 'float f;\n', 1, '', 'E6 coin.qasm:3:1 profile float\n'),
    ('format coin.qasm', '@here x q;', 1, '', 'E6 coin.qasm:1:1 profile annotation\n'),
    ('format other.qasm', COIN, 4, '', 'S1 shelf other.qasm\n'),
    ('run', COIN, 2, '', 'W1 words\n'),
    ('', COIN, 2, '', 'W1 words\n'),
    ('paint coin.qasm', COIN, 2, '', 'W2 mode paint\n'),
    ('run coin.qasm coin.qasm', COIN, 2, '', 'W1 words\n'),
]

# texts that aren't read, by the name `p.qasm`: the mode, the bytes, the number of bytes that line feeds fill them up to, and the line
UNREAD = [
    ('run', COIN.encode(), 1048576, 'E0 p.qasm form\n'),
    ('run', COIN.encode(), 1048577, 'E2 p.qasm long\n'),
    ('run', b'\xff', 0, 'E1 p.qasm utf8 0\n'),
    ('run', b'bit \xcf;', 0, 'E1 p.qasm utf8 4\n'),
    ('format', COIN.encode(), 1048577, 'E2 p.qasm long\n'),
    ('format', b'\xff', 0, 'E1 p.qasm utf8 0\n'),
    ('format', b'bit \xcf;', 0, 'E1 p.qasm utf8 4\n'),
    ('run', b'', 0, 'E0 p.qasm form\n'),
]

# a sink that refuses a call and keeps so many bytes of it, and one that refuses its first call:
# the words, the text, the call, the bytes kept, those kept of the line, the status, and what the two hold
CUTS = [
    ('run coin.qasm', COIN, 1, 0, 0, 5, '', ''),
    ('run coin.qasm', COIN, 1, 100, 100, 5, 'c=0 (1+0r)/2^1\n', 'O1 sink\n'),
    ('run coin.qasm', COIN, 2, 3, 100, 5, 'c=0 (1+0r)/2^1\nc=1', 'O1 sink\n'),
    ('run coin.qasm', COIN, 3, 6, 6, 5, 'c=0 (1+0r)/2^1\nc=1 (1+0r)/2^1\ntotal ', 'O1 sin'),
    ('run coin.qasm', COIN, 4, 0, 0, 0, COIN_REPORT, ''),
    ('format coin.qasm', THREE_LINES, 1, 3, 100, 5, 'qub', 'O1 sink\n'),
    ('format coin.qasm', THREE_LINES, 2, 0, 1, 5, 'qubit q;\n', 'O'),
    ('format coin.qasm', THREE_LINES, 3, 100, 100, 5, 'qubit q;\nh q;\nend;\n', 'O1 sink\n'),
    ('format coin.qasm', THREE_LINES, 4, 0, 0, 0, 'qubit q;\nh q;\nend;\n', ''),
    ('format coin.qasm', 'h q', 1, 0, 4, 1, '', 'E4 c'),
]

# cramped texts of each form of the grammar, with their canonical texts, which follow from the rules of the layout
FORMS = [
    ('//nothing',
     ''),
    ('OPENQASM 0x3;',
     'OPENQASM 3;\n'),
    ('OPENQASM 3.10;',
     'OPENQASM 3.10;\n'),
    ('include"stdgates.inc";include\'0_1\';include\'say"s\';',
     'include "stdgates.inc";\ninclude "0_1";\ninclude \'say"s\';\n'),
    ('input int[ 8 ]n;output angle t;input bit b;',
     'input int[8] n;\noutput angle t;\ninput bit b;\n'),
    ('qubit q;qubit[2]r;qreg s;qreg t[n+1];',
     'qubit q;\nqubit[2] r;\nqreg s;\nqreg t[n + 1];\n'),
    ('array[int[8],2,n]z={{1,n+2},{3}};array[bool,2]y;',
     'array[int[8], 2, n] z = {{1, n + 2}, {3}};\narray[bool, 2] y;\n'),
    ('gate k q{}',
     'gate k q {\n}\n'),
    ('gate g(a,b)q,r{ctrl(2)@inv@x(a)q,r;barrier q,r;gphase(a);}gate m()q{barrier;}',
     'gate g(a, b) q, r {\n  ctrl(2) @ inv @ x(a) q, r;\n  barrier q, r;\n  gphase(a);\n}\ngate m() q {\n  barrier;\n}\n'),
    ('def g(){return;}',
     'def g() {\n  return;\n}\n'),
    ('def f(int[8]a,qubit[2]b,qubit c)->bit[3]{if(a<1){return measure b;}}',
     'def f(int[8] a, qubit[2] b, qubit c) -> bit[3] {\n  if (a < 1) {\n    return measure b;\n  }\n}\n'),
    ('int[8]x=measure q[0];bit c;uint y=2;angle[n]z;bool b=true;',
     'int[8] x = measure q[0];\nbit c;\nuint y = 2;\nangle[n] z;\nbool b = true;\n'),
    ('creg c;creg d[2];const uint n=2;const bool t=!false;',
     'creg c;\ncreg d[2];\nconst uint n = 2;\nconst bool t = !false;\n'),
    ('let a=q;let b=q[0]++r++s[1:2];',
     'let a = q;\nlet b = q[0] ++ r ++ s[1:2];\n'),
    ('x=1;x[0,1][2]=y;x=measure q[0:2];',
     'x = 1;\nx[0, 1][2] = y;\nx = measure q[0:2];\n'),
    ('a+=1;a-=1;a*=1;a/=1;a%=1;a**=1;',
     'a += 1;\na -= 1;\na *= 1;\na /= 1;\na %= 1;\na **= 1;\n'),
    ('a&=1;a|=1;a^=1;a<<=1;a[0]>>=1;',
     'a &= 1;\na |= 1;\na ^= 1;\na <<= 1;\na[0] >>= 1;\n'),
    ('measure q;measure q[{0,1}]->c[0][1,2];',
     'measure q;\nmeasure q[{0, 1}] -> c[0][1, 2];\n'),
    ('reset q[1];barrier q,r[0];barrier;',
     'reset q[1];\nbarrier q, r[0];\nbarrier;\n'),
    ('h q[0],r;p(pi/2,1)q;f()q;f(1,2);f();',
     'h q[0], r;\np(pi / 2, 1) q;\nf() q;\nf(1, 2);\nf();\n'),
    ('inv@pow(2)@ctrl@negctrl(2)@gphase(π);negctrl@x q,r;gphase(1)q,r;',
     'inv @ pow(2) @ ctrl @ negctrl(2) @ gphase(pi);\nnegctrl @ x q, r;\ngphase(1) q, r;\n'),
    ('if(a)x q;',
     'if (a) {\n  x q;\n}\n'),
    ('if(a)x=1;else if(b){y=2;end;}else{}',
     'if (a) {\n  x = 1;\n} else {\n  if (b) {\n    y = 2;\n    end;\n  } else {\n  }\n}\n'),
    ('while(true)end;while(n<2){n+=1;break;continue;}',
     'while (true) {\n  end;\n}\nwhile (n < 2) {\n  n += 1;\n  break;\n  continue;\n}\n'),
    ('for uint[8]i in[0:2:8]x q[i];for int l in[:]{}',
     'for uint[8] i in [0:2:8] {\n  x q[i];\n}\nfor int l in [:] {\n}\n'),
    ('for int j in{1,2}for bit k in b{while(k)reset q;}',
     'for int j in {1, 2} {\n  for bit k in b {\n    while (k) {\n      reset q;\n    }\n  }\n}\n'),
    ('return;return measure q;return x+1;return-x;return(x);end;',
     'return;\nreturn measure q;\nreturn x + 1;\nreturn-x;\nreturn(x);\nend;\n'),
    ('x=a||b&&c|d^e&f==g!=h<i<=j>k>=l;',
     'x = a || b && c | d ^ e & f == g != h < i <= j > k >= l;\n'),
    ('x=a<<b>>c+d-e*f/g%h**i;',
     'x = a << b >> c + d - e * f / g % h ** i;\n'),
    ('x=-(a)**-b;x=!(~a);x=a-(b-c);x=(a-b)-c;x=- -a;',
     'x = -(a) ** -b;\nx = !(~a);\nx = a - (b - c);\nx = (a - b) - c;\nx = --a;\n'),
    ('x=0x1F+0b1_0+0o17+1_000;x=π+pi+τ+tau;b="0_1_01";b=\'0\';',
     'x = 31 + 2 + 15 + 1000;\nx = pi + pi + tau + tau;\nb = "0101";\nb = "0";\n'),
    ('x=sizeof(a)+sizeof(a,1)+int[8](a)+bool(b)+bit(c)+f()+f(1,g(2));',
     'x = sizeof(a) + sizeof(a, 1) + int[8](a) + bool(b) + bit(c) + f() + f(1, g(2));\n'),
    ('x=a[0,-1][b[2]]+a[:]+a[1:]+a[:2]+a[1:2];',
     'x = a[0, -1][b[2]] + a[:] + a[1:] + a[:2] + a[1:2];\n'),
    ('x=a[:2:]+a[:2:3]+a[1:2:]+a[1:2:3]+a[{1,2}];',
     'x = a[:2:] + a[:2:3] + a[1:2:] + a[1:2:3] + a[{1, 2}];\n'),
    ('OPENQASM 3.0;include"stdgates.inc";qubit[3]q;bit[3]c;h q[0];cx q[0],q[1];c[0]=measure q[0];',
     'OPENQASM 3.0;\ninclude "stdgates.inc";\nqubit[3] q;\nbit[3] c;\nh q[0];\ncx q[0], q[1];\nc[0] = measure q[0];\n'),
]


def escaped(data):
    """Bytes as rows and answers write them; a text may also stand in a row as it is."""
    return ''.join('\\n' if b == 10 else chr(b) if 32 <= b < 127 and b != 92 else '\\x%02x' % b for b in data)


def lengths(lines):
    return ''.join(' %d' % len(line) for line in lines)


def lines_of(text):
    return text.encode().splitlines(keepends=True)


rows, answers = [], []


def row(text, answer):
    rows.append(text)
    answers.append(answer)


def put_text(name, data):
    row('new', 'new')
    row('text %s %s' % (name, escaped(data)), 'text')


def call(words, status, puts, line_puts, out, err, refused=False):
    """The row of a call of `host` and its answer: a text is fetched once, where the words name one in a mode."""
    named = words.split(' ')
    fetches = '0'
    if len(named) == 2 and named[0] in ('run', 'format'):
        # no text of that name and a fetch that fails are logged like every other fetch
        fetches = '1 %s %d' % (named[1], BOUND)
    row(('host ' + words).rstrip(),
        'status %d; fetches %s; puts %d%s; lines %d%s; out %s; err %s;'
        % (status, fetches, len(puts), lengths(puts), len(line_puts), lengths(line_puts), escaped(out.encode()), escaped(err.encode())))


def whole_call(words, status, out, err):
    call(words, status, lines_of(out), [err.encode()] if err else [], out, err)


def cut_call(words, answer, at, kept, kept_of_line):
    """A call whose put with that number fails and keeps so many bytes, and whose fault line is refused likewise."""
    lines = [line.decode() for line in lines_of(answer)]
    row('out %d %d' % (at, kept), 'out')
    row('err 1 %d' % kept_of_line, 'err')
    if at > len(lines):
        whole_call(words, 0, answer, '')
    else:
        taken = ''.join(lines[:at - 1]) + lines[at - 1][:kept]
        call(words, 5, [line.encode() for line in lines[:at]], [b'O1 sink\n'], taken, 'O1 sink\n'[:kept_of_line])


for words, text, status, out, err in CALLS:
    put_text('coin.qasm', text.encode())
    whole_call(words, status, out, err)

for mode, data, count, line in UNREAD:
    row('new', 'new')
    row('filled p.qasm %d %s' % (count, escaped(data)), 'filled')
    whole_call(mode + ' p.qasm', 1, '', line)

# the canonical text by itself, and the shelf's fault in its place
put_text('p.qasm', b'qubit q;h q;')
row('format p.qasm', escaped(b'qubit q;\nh q;\n') + '; fetches 1 p.qasm %d; ' % BOUND)
row('format q.qasm', 'shelf q.qasm; fetches 1 q.qasm %d; ' % BOUND)

for words, text, at, kept, kept_of_line, status, out, err in CUTS:
    put_text('coin.qasm', text.encode())
    row('out %d %d' % (at, kept), 'out')
    row('err 1 %d' % kept_of_line, 'err')
    answer = {COIN: COIN_REPORT, THREE_LINES: 'qubit q;\nh q;\nend;\n', 'h q': ''}[text]
    line = {0: [], 1: [b'E4 coin.qasm:1:4 syntax\n'], 5: [b'O1 sink\n']}[status]
    call(words, status, lines_of(answer)[:at] if status != 1 else [], line, out, err)

# a shelf that fails at its first and third call, for a text that it holds
put_text('coin.qasm', COIN.encode())
row('fetch 1', 'fetch')
row('fetch 3', 'fetch')
for words, out in (('run coin.qasm', COIN_REPORT), ('format coin.qasm', COIN)):
    whole_call(words, 4, '', 'S1 shelf coin.qasm\n')
    whole_call(words, 0, out, '')

# each put refused in turn, in both modes, with several counts of bytes kept of it and of the line
for words, text, answer in (('run coin.qasm', COIN, COIN_REPORT), ('format coin.qasm', COIN, COIN)):
    put_text('coin.qasm', text.encode())
    for at in range(1, len(lines_of(answer)) + 2):
        for kept, kept_of_line in ((0, 0), (1, 7), (5, 8)):
            cut_call(words, answer, at, kept, kept_of_line)

# the fault line refused for each status that has one
for words, text, status, line in (('run coin.qasm', 'h q', 1, 'E4 coin.qasm:1:4 syntax\n'), ('run coin.qasm', '', 1, 'E0 coin.qasm form\n'),
                                  ('paint coin.qasm', '', 2, 'W2 mode paint\n'), ('run', '', 2, 'W1 words\n'),
                                  ('run other.qasm', '', 4, 'S1 shelf other.qasm\n'), ('format other.qasm', '', 4, 'S1 shelf other.qasm\n')):
    put_text('coin.qasm', text.encode())
    for kept in (0, 1, len(line) - 1, len(line)):
        row('err 1 %d' % kept, 'err')
        call(words, status, [], [line.encode()], '', line[:kept])

# another text of the shelf isn't fetched
put_text('coin.qasm', COIN.encode())
row('text gates.inc gate g q {}', 'text')
row('text stdgates.inc gate h q {}', 'text')
whole_call('run coin.qasm', 0, COIN_REPORT, '')
whole_call('format coin.qasm', 0, COIN, '')

# each form cramped, with comments in every gap, and as its canonical text
for cramped, canonical in FORMS:
    for kind, text in (('text', escaped(cramped.encode())), ('wide', cramped), ('text', escaped(canonical.encode()))):
        row('%s p.qasm %s' % (kind, text), kind)
        row('format p.qasm', escaped(canonical.encode()) + '; fetches 1 p.qasm %d; ' % BOUND)

open('stdin', 'w').write(''.join(r + '\n' for r in rows))
open('stdout', 'w').write(''.join(a + '\n' for a in answers))
