"""Designs whose whole report document 01 gives, or settles by its table of small designs. The designs are cases of crates/outcomes/stdin; their
reports are written out here by hand."""

from cases import cases, text_of_design

CASES = dict(cases("outcomes"))


def row(name, report):
    return name, text_of_design(name, CASES[name]), "".join(line + "\n" for line in report.split()).encode()


KNOWN = [
    # the report, whole
    row("listing", "kept=5 kept=4 kept=3 kept=2 implied=1,2,3,4 kept=1 free=1 dropped=1 verdict=over-loose groups=1,2,3"),
    row("P1", "kept=2 kept=1 kept=0 free=0 dropped=0 verdict=tight groups=1,1"),
    row("P2", "kept=2 implied=1 free=2 dropped=1 verdict=over-loose groups=1,2"),
    row("P3", "kept=2 kept=1 kept=0 implied=1,2,3 free=0 dropped=1 verdict=over-tight groups=1,1"),
    row("P4", "kept=2 kept=1 kept=0 implied=1,2,3 free=0 dropped=1 verdict=over-tight groups=1,1"),
    row("P5", "kept=5 kept=4 kept=3 kept=2 implied=1,2,3,4 free=2 dropped=1 verdict=over-loose groups=1,2,3"),
    row("P6", "kept=5 kept=4 kept=3 kept=2 implied=1,2,3,4 free=2 dropped=1 verdict=over-loose groups=1,2,2"),
    row("P7", "kept=5 kept=4 implied=1,2 free=4 dropped=1 verdict=over-loose groups=1,2,3"),
    row("P8", "kept=3 kept=2 kept=1 kept=0 free=0 dropped=0 verdict=tight groups=1,1"),
    # P8, one more r
    row("P8_more", "kept=3 kept=2 kept=1 kept=0 implied=1,2 free=0 dropped=1 verdict=over-tight groups=1,1"),
    row("P9", "kept=5 kept=4 kept=3 kept=2 kept=1 kept=0 free=0 dropped=0 verdict=tight groups=1,1,1"),
    row("P10", "free=0 dropped=0 verdict=tight groups=1"),
    row("k_r", "kept=2 kept=1 free=1 dropped=0 verdict=loose groups=1,2"),
    # 64 bodies, no edges
    row("open_64", "free=378 dropped=0 verdict=loose groups=" + ",".join(map(str, range(1, 65)))),
    # 65 bodies
    row("open_65", "refused=2,3"),
]
