"""Lists of conflicts of sets of versions, each over an index and lines, and the problem that these make."""

from support.made.drawn_rows import spelt_index
from support.made.environments import LINUX
from support.rules.locks import Problem

# an index, lines over it, and lists of conflicts
LISTS = (
    (
        "a 1|b<2 2|b<2 3|b/b 1 2 3/c 1|b>=2", "a<3\nc",
        ("a==2,1 b==3,2", "c==1 b==1", "a==2,1 c==1", "a==3", "a==2,1", "-"),
        ("c==1 b==1", "b==3,2 a==1,2", "a==2,1.0 c==1", "a==3,4", "a==1", "a==2", "a==2,1", "-"),
        ("b==1,2", "-"), ("b==2", "-"), ("b==", "-"), ("-",), (),
    ),
    (
        "a 1|b<2 2 3/b 1 2|a!=2 3|a!=2/c 1|a<3|b>=2", "a\nb\nc",
        ("a==2,1 b==3,2", "a==3 c==1", "b==1 c==1", "a==1,2 c==1", "c==1", "-"),
        ("a==1 b==2,3", "a==2 b==2,3", "c==1 b==1", "c==1 a==3", "a==1 c==1", "a==2 c==1", "a==1,2 c==1", "c==1", "-"),
    ),
    (
        "a 1|b 2|b 3/b 1|c>=2/c 1 2|b>=2", "a<3",
        ("b==1 c==1", "b==1 c==2", "b==1", "a==3", "a==1,2", "-"),
        ("b==1 c==1", "b==1 c==2", "b==1", "a==1,2,3", "-"),
    ),
    (
        "x 1|y>=2;extra=='e' 2|y>=2;extra=='e' 3/y 1", "x[e]<3",
        ("x[e]==1,2 y==1", "x[e]==2,1", "x[e]==3", "-"), ("x==1,2 y==1", "x==2,1", "x==3", "-"),
        ("x==1 x[e]==2,3", "x[e]==1,2 y==1", "x[e]==1,2", "x[e]==3", "-"), ("x==1 x[e]==1", "-"),
    ),
    ("s 1|s>=2 2|s<2 3|s", "s!=3", ("s==1", "s==2", "s==3", "-"), ("s==1,2", "s==3", "-")),
    ("p 1|z 2|z>=2/z 1", "p", ("p==2 z==1", "p==2", "-"), ("z==1", "-")),
)


def problem_of(packages, lines):
    return Problem([line + "\n" for line in lines.split("\n")], LINUX, spelt_index(packages), {})
