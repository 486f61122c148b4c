#!/usr/bin/env python3
"""Writes the rows of this program to `stdin` and the answers that are wanted to `stdout`.

FORMS has a cramped text of each form of the grammar, with its canonical text, which follows from the rules of the layout. Each pair makes
four rows: the cramped text is formatted, then the same with comments in every gap, then the canonical text itself, and the program of the
cramped text is printed and read back.
"""
import pathlib

FORMS = [
    (
        "//nothing",
        "",
    ),
    (
        "OPENQASM 0x3;",
        "OPENQASM 3;\n",
    ),
    (
        "OPENQASM 3.10;",
        "OPENQASM 3.10;\n",
    ),
    (
        "include\"stdgates.inc\";include'0_1';include'say\"s';",
        "include \"stdgates.inc\";\ninclude \"0_1\";\ninclude 'say\"s';\n",
    ),
    (
        "input int[ 8 ]n;output angle t;input bit b;",
        "input int[8] n;\noutput angle t;\ninput bit b;\n",
    ),
    (
        "qubit q;qubit[2]r;qreg s;qreg t[n+1];",
        "qubit q;\nqubit[2] r;\nqreg s;\nqreg t[n + 1];\n",
    ),
    (
        "array[int[8],2,n]z={{1,n+2},{3}};array[bool,2]y;",
        "array[int[8], 2, n] z = {{1, n + 2}, {3}};\narray[bool, 2] y;\n",
    ),
    (
        "gate k q{}",
        "gate k q {\n}\n",
    ),
    (
        "gate g(a,b)q,r{ctrl(2)@inv@x(a)q,r;barrier q,r;gphase(a);}gate m()q{barrier;}",
        "gate g(a, b) q, r {\n  ctrl(2) @ inv @ x(a) q, r;\n  barrier q, r;\n  gphase(a);\n}\ngate m() q {\n  barrier;\n}\n",
    ),
    (
        "def g(){return;}",
        "def g() {\n  return;\n}\n",
    ),
    (
        "def f(int[8]a,qubit[2]b,qubit c)->bit[3]{if(a<1){return measure b;}}",
        "def f(int[8] a, qubit[2] b, qubit c) -> bit[3] {\n  if (a < 1) {\n    return measure b;\n  }\n}\n",
    ),
    (
        "int[8]x=measure q[0];bit c;uint y=2;angle[n]z;bool b=true;",
        "int[8] x = measure q[0];\nbit c;\nuint y = 2;\nangle[n] z;\nbool b = true;\n",
    ),
    (
        "creg c;creg d[2];const uint n=2;const bool t=!false;",
        "creg c;\ncreg d[2];\nconst uint n = 2;\nconst bool t = !false;\n",
    ),
    (
        "let a=q;let b=q[0]++r++s[1:2];",
        "let a = q;\nlet b = q[0] ++ r ++ s[1:2];\n",
    ),
    (
        "x=1;x[0,1][2]=y;x=measure q[0:2];",
        "x = 1;\nx[0, 1][2] = y;\nx = measure q[0:2];\n",
    ),
    (
        "a+=1;a-=1;a*=1;a/=1;a%=1;a**=1;",
        "a += 1;\na -= 1;\na *= 1;\na /= 1;\na %= 1;\na **= 1;\n",
    ),
    (
        "a&=1;a|=1;a^=1;a<<=1;a[0]>>=1;",
        "a &= 1;\na |= 1;\na ^= 1;\na <<= 1;\na[0] >>= 1;\n",
    ),
    (
        "measure q;measure q[{0,1}]->c[0][1,2];",
        "measure q;\nmeasure q[{0, 1}] -> c[0][1, 2];\n",
    ),
    (
        "reset q[1];barrier q,r[0];barrier;",
        "reset q[1];\nbarrier q, r[0];\nbarrier;\n",
    ),
    (
        "h q[0],r;p(pi/2,1)q;f()q;f(1,2);f();",
        "h q[0], r;\np(pi / 2, 1) q;\nf() q;\nf(1, 2);\nf();\n",
    ),
    (
        "inv@pow(2)@ctrl@negctrl(2)@gphase(π);negctrl@x q,r;gphase(1)q,r;",
        "inv @ pow(2) @ ctrl @ negctrl(2) @ gphase(pi);\nnegctrl @ x q, r;\ngphase(1) q, r;\n",
    ),
    (
        "if(a)x q;",
        "if (a) {\n  x q;\n}\n",
    ),
    (
        "if(a)x=1;else if(b){y=2;end;}else{}",
        "if (a) {\n  x = 1;\n} else {\n  if (b) {\n    y = 2;\n    end;\n  } else {\n  }\n}\n",
    ),
    (
        "while(true)end;while(n<2){n+=1;break;continue;}",
        "while (true) {\n  end;\n}\nwhile (n < 2) {\n  n += 1;\n  break;\n  continue;\n}\n",
    ),
    (
        "for uint[8]i in[0:2:8]x q[i];for int l in[:]{}",
        "for uint[8] i in [0:2:8] {\n  x q[i];\n}\nfor int l in [:] {\n}\n",
    ),
    (
        "for int j in{1,2}for bit k in b{while(k)reset q;}",
        "for int j in {1, 2} {\n  for bit k in b {\n    while (k) {\n      reset q;\n    }\n  }\n}\n",
    ),
    (
        "return;return measure q;return x+1;return-x;return(x);end;",
        "return;\nreturn measure q;\nreturn x + 1;\nreturn-x;\nreturn(x);\nend;\n",
    ),
    (
        "x=a||b&&c|d^e&f==g!=h<i<=j>k>=l;",
        "x = a || b && c | d ^ e & f == g != h < i <= j > k >= l;\n",
    ),
    (
        "x=a<<b>>c+d-e*f/g%h**i;",
        "x = a << b >> c + d - e * f / g % h ** i;\n",
    ),
    (
        "x=-(a)**-b;x=!(~a);x=a-(b-c);x=(a-b)-c;x=- -a;",
        "x = -(a) ** -b;\nx = !(~a);\nx = a - (b - c);\nx = (a - b) - c;\nx = --a;\n",
    ),
    (
        "x=0x1F+0b1_0+0o17+1_000;x=π+pi+τ+tau;b=\"0_1_01\";b='0';",
        "x = 31 + 2 + 15 + 1000;\nx = pi + pi + tau + tau;\nb = \"0101\";\nb = \"0\";\n",
    ),
    (
        "x=sizeof(a)+sizeof(a,1)+int[8](a)+bool(b)+bit(c)+f()+f(1,g(2));",
        "x = sizeof(a) + sizeof(a, 1) + int[8](a) + bool(b) + bit(c) + f() + f(1, g(2));\n",
    ),
    (
        "x=a[0,-1][b[2]]+a[:]+a[1:]+a[:2]+a[1:2];",
        "x = a[0, -1][b[2]] + a[:] + a[1:] + a[:2] + a[1:2];\n",
    ),
    (
        "x=a[:2:]+a[:2:3]+a[1:2:]+a[1:2:3]+a[{1,2}];",
        "x = a[:2:] + a[:2:3] + a[1:2:] + a[1:2:3] + a[{1, 2}];\n",
    ),
    (
        "OPENQASM 3.0;include\"stdgates.inc\";qubit[3]q;bit[3]c;h q[0];cx q[0],q[1];c[0]=measure q[0];",
        "OPENQASM 3.0;\ninclude \"stdgates.inc\";\nqubit[3] q;\nbit[3] c;\nh q[0];\ncx q[0], q[1];\nc[0] = measure q[0];\n",
    ),
]

# what is no row, and texts that are no program
REFUSED = [
    ("format OPENQASM 3.0;OPENQASM 3.0;", "Syntax(Place { file: 0, line: 1, column: 14 })"),
    ("format x=1", "Syntax(Place { file: 0, line: 1, column: 4 })"),
    ("format x=`;", "Token(Place { file: 0, line: 1, column: 3 })"),
    ("sprawl x=`;", "Token(Place { file: 0, line: 1, column: 3 })"),
    ("again x=1", "Syntax(Place { file: 0, line: 1, column: 4 })"),
    ("print x=1;", "no row"),
]


def escaped(text):
    return text.replace("\\", "\\\\").replace("\n", "\\n").replace("\r", "\\r")


rows = []
for cramped, canonical in FORMS:
    rows.append(("format " + escaped(cramped), escaped(canonical)))
    rows.append(("sprawl " + escaped(cramped), escaped(canonical)))
    rows.append(("format " + escaped(canonical), escaped(canonical)))
    rows.append(("again " + escaped(cramped), "same"))
rows.extend(REFUSED)

here = pathlib.Path(__file__).parent
(here / "stdin").write_text("".join(row + "\n" for row, _ in rows), encoding="utf-8")
(here / "stdout").write_text("".join(answer + "\n" for _, answer in rows), encoding="utf-8")
