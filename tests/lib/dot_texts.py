#!/usr/bin/env python3
"""Tests the reader of drawings in drawn.py: what it must read, and the broken texts that it must refuse.

The texts were written by hand from docs/FORMAT.md, "The command `dot`". It needs no program.
"""

import sys

sys.dont_write_bytecode = True
import drawn  # noqa: E402  (beside this file)

PLAN = rb"""digraph wqplan {
  graph [label="plan of 3 workqueues, 2 waits in bold\lBold: the chain that needs so many workqueues.\l", labelloc=t, labeljust=l, rankdir=LR, nodesep=0.15, ranksep=1, fontname="sans-serif"];
  node [shape=box, style=filled, fillcolor=white, height=0.3, fontname="sans-serif", fontsize=12];
  edge [arrowsize=0.7];
  subgraph "cluster wq 0" {
    graph [label="", style=filled, color=gray92]; "wq 0" [shape=plaintext, style="", fontsize=14];
    "a";
    "7";
  }
  subgraph "cluster wq 1" {
    graph [label="", style=filled, color=gray92]; "wq 1" [shape=plaintext, style="", fontsize=14];
    subgraph "cluster ordered b.x" {
      graph [label="", style=dashed, color=black]; "ordered b.x" [label="ordered", shape=plaintext, style=""];
      "b.x";
      "d-d";
    }
    "c_c";
  }
  subgraph "cluster wq 2" {
    graph [label="", style=filled, color=gray92]; "wq 2" [shape=plaintext, style="", fontsize=14];
    "node";
  }
  "c_c" -> "a";
  "d-d" -> "7" [style=bold];
  "d-d" -> "7" [arrowhead=odiamond] [edgetooltip="a \"b\" \\ &amp; c"];
  "node" -> "b.x" [style=bold] [arrowhead=odiamond] [edgetooltip="#"];
}
"""
CIRCLE = rb"""digraph wqplan {
  graph [label="can hang, 4 waits in red, 1 in bold\lRed: while memory is short, a worker may wait for work\lthat only it, or one that waits for it, can do.\lBold: enough to hang it, in the fewest steps.\l", labelloc=t, labeljust=l, rankdir=LR, nodesep=0.15, ranksep=1, fontname="sans-serif"];
  node [shape=box, style=filled, fillcolor=white, height=0.3, fontname="sans-serif", fontsize=12];
  edge [arrowsize=0.7];
  subgraph "cluster wq 0" {
    graph [label="", style=filled, color=gray92]; "wq 0" [shape=plaintext, style="", fontsize=14];
  }
  subgraph "cluster wq 1" {
    graph [label="", style=filled, color=gray92]; "wq 1" [shape=plaintext, style="", fontsize=14];
    "a";
    "b";
  }
  "a" -> "b" [color=red, style=bold];
  "b" -> "b" [color=red, style=bold] [arrowhead=odiamond];
  "a" -> "b" [color=red, style=bold] [dir=back];
  "a" -> "b" [color=red, penwidth=4] [dir=back, arrowtail=odiamond] [edgetooltip="%s"];
}
""".replace(b"%s", b"&amp;" * 256)
# Flush 0, `a` of `x`, leads from a workqueue without a rescuer, 1 and 2 lead to one, 3 lies on a circle, and 4 and 5 lead from one.
# Those of two items that flush one another are drawn from the one that was declared first: `x`, `b`.
BARE = rb"""digraph wqplan {
  graph [label="can hang, 3 waits in red, 2 to no rescuer, 1 in bold\lRed: while memory is short, a worker may wait for work\lthat only it, or one that waits for it, can do,\lor that no rescuer does.\lBold: enough to hang it, in the fewest steps.\lDashed: no rescuer. While memory is short, nothing\lguarantees that work there runs.\l", labelloc=t, labeljust=l, rankdir=LR, nodesep=0.15, ranksep=1, fontname="sans-serif"];
  node [shape=box, style=filled, fillcolor=white, height=0.3, fontname="sans-serif", fontsize=12];
  edge [arrowsize=0.7];
  subgraph "cluster wq 0" {
    graph [label="", style=filled, color=gray92]; "wq 0" [label="\"x\" &amp; \\", shape=plaintext, style="", fontsize=14];
    "x";
  }
  subgraph "cluster wq 1" {
    graph [label="", style="filled,dashed", fillcolor=gray92, color=black]; "wq 1" [label="wq 1 (no rescuer)", shape=plaintext, style="", fontsize=14];
    "a";
  }
  subgraph "cluster wq 2" {
    graph [label="", style=filled, color=gray92]; "wq 2" [label="wq 2 same name", shape=plaintext, style="", fontsize=14];
    "b";
  }
  subgraph "cluster wq 3" {
    graph [label="", style="filled,dashed", fillcolor=gray92, color=black]; "wq 3" [label="wq 3 same name (no rescuer)", shape=plaintext, style="", fontsize=14];
    "y";
  }
  subgraph "cluster wq 4" {
    graph [label="", style=filled, color=gray92]; "wq 4" [shape=plaintext, style="", fontsize=14];
    "c";
  }
  subgraph "cluster wq 5" {
    graph [label="", style="filled,dashed", fillcolor=gray92, color=black]; "wq 5" [label="system_wq (no rescuer)", shape=plaintext, style="", fontsize=14];
  }
  "x" -> "a" [dir=back];
  "x" -> "a" [color=red, style=bold];
  "b" -> "y" [color=red, style=bold] [arrowhead=odiamond];
  "c" -> "c" [color=red, penwidth=4];
  "b" -> "y" [dir=back];
  "y" -> "c";
}
"""
EMPTY = rb"""digraph wqplan {
  graph [label="plan of 0 workqueues", labelloc=t, labeljust=l, rankdir=LR, nodesep=0.15, ranksep=1, fontname="sans-serif"];
  node [shape=box, style=filled, fillcolor=white, height=0.3, fontname="sans-serif", fontsize=12];
  edge [arrowsize=0.7];
}
"""

# The circle, three arrows of which are dotted.
UNSURE = CIRCLE.replace(b"1 in bold", b"1 in bold, 3 not sure").replace(rb"steps.\l", rb"steps.\lDotted: not sure.\l").replace(
    b'"a" -> "b" [color=red, style=bold]', b'"a" -> "b" [color=red, style="bold,dotted"]').replace(b"penwidth=4", b"penwidth=4, style=dotted")

# How workqueue 1 looks.
LOOKS_OF_1 = b'    graph [label="", style=filled, color=gray92]; "wq 1" [shape=plaintext, style="", fontsize=14];\n'

# The text, and what is drawn.
GOOD = [
    (PLAN, drawn.Drawing(
        "plan of 3 workqueues, 2 waits in bold", [[["a"], ["7"]], [["b.x", "d-d"], ["c_c"]], [["node"]]],
        [("c_c", "a", "black", False), ("d-d", "7", "bold", False), ("d-d", "7", "black", True),
         ("node", "b.x", "bold", True)],
        ["", "", 'a "b" \\ & c', "#"])),
    (CIRCLE, drawn.Drawing("can hang, 4 waits in red, 1 in bold", [[], [["a"], ["b"]]],
                         [("a", "b", "red", False), ("b", "b", "red", True), ("b", "a", "red", False), ("b", "a", "bold red", True)],
                         ["", "", "", "&" * 256])),
    (BARE, drawn.Drawing("can hang, 3 waits in red, 2 to no rescuer, 1 in bold", [[["x"]], [["a"]], [["b"]], [["y"]], [["c"]], []],
                       [("a", "x", "black", False), ("x", "a", "red", False), ("b", "y", "red", True), ("c", "c", "bold red", False),
                        ("y", "b", "black", False), ("y", "c", "black", False)],
                       [""] * 6, {1, 3, 5}, {0: '"x" & \\', 2: "wq 2 same name", 3: "wq 3 same name", 5: "system_wq"})),
    (UNSURE, drawn.Drawing("can hang, 4 waits in red, 1 in bold, 3 not sure", [[], [["a"], ["b"]]],
                         [("a", "b", "red", False), ("b", "b", "red", True), ("b", "a", "red", False), ("b", "a", "bold red", True)],
                         ["", "", "", "&" * 256], unsure={0, 2, 3})),
    (EMPTY, drawn.Drawing("plan of 0 workqueues", [], [])),
    (EMPTY.replace(b"plan of 0 workqueues", b"safe"), drawn.Drawing("safe", [], [])),
]

# The text, what in it is replaced by what, and the line at fault. Where each line has its form, that is the last line that was
# read: of a box its end, and of what TITLE says the end of the text.
BROKEN = [
    # The head.
    (PLAN, b"digraph wqplan {", b"digraph plan {", 1),
    (PLAN, b"digraph wqplan {", b"strict digraph wqplan {", 1),
    (PLAN, b"plan of 3", b"plan of 03", 2),
    (PLAN, b"plan of 3", b"plan of", 2),
    (PLAN, b"plan of 3", b"plan 3", 2),
    (PLAN, b"plan of 3", b"circle of 3", 2),
    (PLAN, b"3 workqueues,", b"3 workqueue,", 2),
    (PLAN, b"3 workqueues,", b"1 workqueues,", 2),
    (PLAN, b"2 waits in bold", b"2 waits", 2),
    (PLAN, b"2 waits in bold", b"2 wait in bold", 2),
    (PLAN, b"2 waits in bold", b"0 waits in bold", 2),
    (PLAN, b"2 waits in bold", b"2 waits in red", 2),
    (PLAN, rb"\lBold: the chain that needs so many workqueues.\l", b"", 2),
    (PLAN, rb"workqueues.\l", b"workqueues.", 2),
    (PLAN, rb"workqueues.\l", rb"workqueues.\l\l", 2),
    (PLAN, rb"Bold:", rb"Red:", 2),
    (CIRCLE, b", 4 waits in red", b"", 2),
    (CIRCLE, b"can hang", b"safe", 2),
    (CIRCLE, rb"\lthat", b" that", 2),
    (CIRCLE, rb"can do.\l", b"can do.\n", 2),
    (EMPTY, b"plan of 0 workqueues", b"can hang", 2),
    (UNSURE, b", 3 not sure", b"", 2),
    (UNSURE, b", 3 not sure", b", 0 not sure", 2),
    (UNSURE, rb"Dotted: not sure.\l", b"", 2),
    (UNSURE, b", 3 not sure", b", 1 not sure", 17),
    (UNSURE, b"penwidth=4, style=dotted", b"penwidth=4", 17),
    (EMPTY, b"workqueues\"", rb'workqueues\lBold: the chain that needs so many workqueues.\l"', 2),
    (PLAN, b"labelloc=t, ", b"", 2),
    (PLAN, b"rankdir=LR, ", b"rankdir=LR, newrank=true, ", 2),
    (PLAN, b"ranksep=1,", b"ranksep=2,", 2),
    (PLAN, b"nodesep=0.15", b"nodesep=0x15", 2),
    (PLAN, b"shape=box", b"shape=oval", 3),
    (PLAN, b"  edge [arrowsize=0.7];\n", b"", 4),
    # Workqueues.
    (PLAN, b'"cluster wq 1"', b'"cluster wq 2"', 10),
    (PLAN, b'"cluster wq 1"', b'"cluster wq 01"', 10),
    (PLAN, b'"cluster wq 0"', b'"cluster wq 1"', 5),
    (PLAN, b'"cluster wq 0"', b'cluster_0', 5),
    (PLAN, b'"wq 1" [', b'"wq 0" [', 11),
    (PLAN, LOOKS_OF_1, b"", 11),
    (PLAN, LOOKS_OF_1, LOOKS_OF_1.replace(b'label=""', b'label="wq 1"'), 11),
    (PLAN, LOOKS_OF_1, LOOKS_OF_1.replace(b'style=filled', b'rank=same, style=filled'), 11),
    (PLAN, LOOKS_OF_1, LOOKS_OF_1.replace(b"gray92", b"gray"), 11),
    (PLAN, LOOKS_OF_1, LOOKS_OF_1.replace(b"plaintext", b"box"), 11),
    (PLAN, LOOKS_OF_1, LOOKS_OF_1.replace(b' "wq 1" [shape=plaintext, style="", fontsize=14];', b""), 11),
    (PLAN, b'    "node";\n  }\n', b'    "node";\n', 22),
    (PLAN, b'    "node";\n  }\n', b'    "node";\n  }\n  }\n', 23),
    # Names, and workqueues without a rescuer.
    (BARE, b'"wq 0" [label="\\"x\\" &amp; \\\\", ', b'"wq 0" [label="x" & y", ', 6),
    (BARE, b'"wq 0" [label="\\"x\\" &amp; \\\\", ', b'"wq 0" [label="", ', 6),
    (BARE, b'"wq 0" [label="\\"x\\" &amp; \\\\", ', b'"wq 0" [label="' + b"n" * 64 + b'", ', 6),
    (BARE, b'"wq 0" [label="\\"x\\" &amp; \\\\", ', b'"wq 0" [label="x",', 6),
    (BARE, b'"wq 0" [label="\\"x\\" &amp; \\\\", ', b'"wq 0" [label=x, ', 6),
    (BARE, b'"wq 0" [label="\\"x\\" &amp; \\\\", ', b'"wq 0" [label="\xc3\xa4", ', 6),
    (BARE, b'"wq 0" [label="\\"x\\" &amp; \\\\", ', b'"wq 0" [label="\\N", ', 6),
    (BARE, b'label="wq 1 (no rescuer)", ', b'', 10),
    (BARE, b'label="wq 1 (no rescuer)", ', b'label="wq 1", ', 10),
    (BARE, b'label="wq 1 (no rescuer)", ', b'label=" (no rescuer)", ', 10),
    (BARE, b'label="wq 3 same name (no rescuer)", ', b'label="same name", ', 18),
    (BARE, b'style=filled, color=gray92]; "wq 2"', b'style="filled,dashed", fillcolor=gray92, color=black]; "wq 2"', 14),
    (BARE, b'style=filled, color=gray92]; "wq 4"', b'style="filled,dashed", fillcolor=gray92, color=black]; "wq 4"', 22),
    (BARE, b'style="filled,dashed", fillcolor=gray92, color=black]; "wq 5"', b'style="dashed,filled", fillcolor=gray92, color=black]; "wq 5"', 26),
    (BARE, b'style="filled,dashed", fillcolor=gray92, color=black]; "wq 5"', b'style="filled,dashed", color=black]; "wq 5"', 26),
    (BARE, b'  "x" -> "a" [color=red, style=bold];\n', b'  "x" -> "a";\n', 34),
    (BARE, b'  "y" -> "c";\n', b'  "y" -> "c" [color=red, style=bold];\n', 34),
    (BARE, b'  "c" -> "c" [color=red, penwidth=4];\n', b'  "c" -> "c" [dir=back];\n', 33),
    (BARE, b'  "x" -> "a" [dir=back];\n', b'  "a" -> "x";\n', 33),
    (BARE, b", 2 to no rescuer", b", 1 to no rescuer", 34),
    (BARE, b", 2 to no rescuer", b", 3 to no rescuer", 2),
    (BARE, b", 2 to no rescuer", b", 0 to no rescuer", 2),
    (BARE, b", 2 to no rescuer", b"", 2),
    (BARE, b"can hang", b"every assignment can hang", 2),
    (BARE, rb",\lor that no rescuer does", b"", 2),
    (BARE, rb"only it, or one that waits for it, can do,\lor that no", b"no", 2),
    (BARE, rb"\lDashed: no rescuer. While memory is short, nothing\lguarantees that work there runs.", b"", 34),
    (CIRCLE, rb"steps.\l", rb"steps.\lDashed: no rescuer. While memory is short, nothing\lguarantees that work there runs.\l", 17),
    (PLAN, b'"wq 2" [', b'"wq 2" [label="x", ', 27),
    (CIRCLE.replace(b"can hang", b"every assignment can hang"), b'"wq 0" [', b'"wq 0" [label="x", ', 17),
    (EMPTY.replace(b"plan of 0 workqueues", b"safe"), b"safe", rb"safe\lDashed: no rescuer. While memory is short, nothing\lguarantees that work there runs.\l", 5),
    # Items.
    (PLAN, b'    "a";\n', b'    "a"\n', 7),
    (PLAN, b'    "a";\n', b'    a;\n', 7),
    (PLAN, b'    "a";\n', b'   "a";\n', 7),
    (PLAN, b'    "a";\n', b'     "a";\n', 7),
    (PLAN, b'    "a";\n', b'\t"a";\n', 7),
    (PLAN, b'    "a";\n', b'    "a"; \n', 7),
    (PLAN, b'    "a";\n', b'    "a";\r\n', 7),
    (PLAN, b'    "a";\n', b'    "a";\n\n', 8),
    (PLAN, b'    "a";\n', b'    "";\n', 7),
    (PLAN, b'    "a";\n', b'    "a b";\n', 7),
    (PLAN, b'    "a";\n', b'    "a\\"";\n', 7),
    (PLAN, b'    "a";\n', b'    "\xc3\xa4";\n', 7),
    (PLAN, b'    "a";\n', b'    "' + b"a" * 64 + b'";\n', 7),
    (PLAN, b'    "a";\n', b'    "a" [color=red];\n', 7),
    (PLAN, b'    "a";\n', b'    "a";\n    "a";\n', 10),
    (PLAN, b'    "c_c";\n', b'    "a";\n', 18),
    (PLAN, b'    "c_c";\n', b'    "d-d";\n', 18),
    # Ordered groups.
    (PLAN, b'      "b.x";\n', b'', 15),
    (PLAN, b'      "d-d";\n', b'', 15),
    (PLAN, b'      "d-d";\n', b'      "b.x";\n', 18),
    (PLAN, b'      "b.x";\n      "d-d";\n', b'      "d-d";\n      "b.x";\n', 16),
    (PLAN, b'      "b.x";\n', b'    "b.x";\n', 14),
    (PLAN, b'      "d-d";\n    }\n', b'      "d-d";\n  }\n', 16),
    (PLAN, b'"cluster ordered b.x"', b'"cluster ordered c_c"', 13),
    (PLAN, b' "ordered b.x"', b' "ordered c_c"', 13),
    (PLAN.replace(b' "ordered b.x"', b' "ordered c_c"'), b'"cluster ordered b.x"', b'"cluster ordered c_c"', 16),
    (PLAN, b'[label="ordered", ', b'[', 13),
    (PLAN, b'style=dashed', b'style=dotted', 13),
    (PLAN, b'      graph [label="", style=dashed, color=black];', b'     ', 13),
    # Arrows.
    (PLAN, b'  "c_c" -> "a";\n', b'  "c_c" -> "z";\n', 23),
    (PLAN, b'  "c_c" -> "a";\n', b'  "z" -> "a";\n', 23),
    (PLAN, b'  "c_c" -> "a";\n', b'  "c_c" -- "a";\n', 23),
    (PLAN, b'  "c_c" -> "a";\n', b'  "c_c"->"a";\n', 23),
    (PLAN, b'  "c_c" -> "a";\n', b'  "c_c" -> "a" [color=blue];\n', 23),
    (PLAN, b'  "c_c" -> "a";\n', b'  "c_c" -> "a" [color=red];\n', 23),
    (PLAN, b'  "c_c" -> "a";\n', b'  "c_c" -> "a" [style=bold, color=red];\n', 23),
    (PLAN, b'  "c_c" -> "a";\n', b'  "c_c" -> "a" [dir=both];\n', 23),
    (PLAN, b'  "c_c" -> "a";\n', b'  "a" -> "c_c" [dir=back];\n', 26),
    (CIRCLE, b'"a" -> "b" [color=red, style=bold] [dir=back];', b'"b" -> "a" [color=red, style=bold];', 16),
    (CIRCLE, b'  "a" -> "b" [color=red, style=bold];\n', b'', 15),
    (CIRCLE, b'  "a" -> "b" [color=red, style=bold];\n', b'  "b" -> "a" [color=red, style=bold] [dir=back];\n', 16),
    (CIRCLE, b'"b" -> "b" [color=red, style=bold]', b'"b" -> "b" [color=red, style=bold] [dir=back]', 14),
    (CIRCLE, b' [dir=back, arrowtail=odiamond]', b' [dir=back, arrowhead=odiamond]', 16),
    (CIRCLE, b' [dir=back, arrowtail=odiamond]', b' [arrowtail=odiamond]', 16),
    (PLAN, b'  "c_c" -> "a";\n', b'  "c_c" -> "a" -> "7";\n', 23),
    (PLAN, b'  "c_c" -> "a";\n', b'  "c_c" -> "a"\n', 23),
    (PLAN, b'  "c_c" -> "a";\n', b'  "c_c" -> "a" [];\n', 23),
    (PLAN, b'  "c_c" -> "a";\n', b'  "c_c" -> "a" [arrowhead=diamond];\n', 23),
    (PLAN, b'  "c_c" -> "a";\n', b'  "c_c" -> "a" [, arrowhead=odiamond];\n', 23),
    (PLAN, b'"7" [arrowhead=odiamond]', b'"7" [arrowhead=odiamond, color=red]', 25),
    (PLAN, b'"7" [arrowhead=odiamond]', b'"7" [color=redarrowhead=odiamond]', 25),
    (PLAN, b'"7" [arrowhead=odiamond]', b'"7" [arrowhead=odiamond, arrowhead=odiamond]', 25),
    (PLAN, b'"7" [arrowhead=odiamond]', b'"7" [color=red][arrowhead=odiamond]', 25),
    (CIRCLE, b'  "b" -> "b" [color=red, style=bold] [arrowhead=odiamond];\n', b'  subgraph "cluster wq 2" {\n', 14),
    (CIRCLE, b'    "b";\n  }\n', b'    "b";\n  }\n  "a" -> "a";\n  "c";\n', 14),
    # Tooltips.
    (PLAN, b'edgetooltip="#"', b'edgetooltip=""', 26),
    (PLAN, b'edgetooltip="#"', b'tooltip="#"', 26),
    (PLAN, b'edgetooltip="#"', b'edgetooltip="&"', 26),
    (PLAN, b'edgetooltip="#"', b'edgetooltip="&lt;"', 26),
    (PLAN, b'edgetooltip="#"', b'edgetooltip="\\"', 26),
    (PLAN, b'edgetooltip="#"', b'edgetooltip="\\n"', 26),
    (PLAN, b'edgetooltip="#"', b'edgetooltip=""""', 26),
    (PLAN, b'edgetooltip="#"', b'edgetooltip="\t"', 26),
    (PLAN, b'edgetooltip="#"', b'edgetooltip="\xc3\xa4"', 26),
    (PLAN, b' [arrowhead=odiamond] [edgetooltip="#"]', b' [edgetooltip="#"] [arrowhead=odiamond]', 26),
    (CIRCLE, b"&amp;" * 256, b"&amp;" * 257, 16),
    # The end.
    (EMPTY, b"}\n", b"", 5),
    (EMPTY, b"}\n", b"}", 5),
    (EMPTY, b"}\n", b"}\n\n", 6),
    (EMPTY, b"}\n", b"}\n}\n", 6),
    (EMPTY, b"}\n", b"}\n#\n", 6),
    (EMPTY, b"}\n", b"}\n#", 6),
    # TITLE, the boxes and the colours.
    (EMPTY, b"0 workqueues", b"1 workqueue", 5),
    (PLAN, b"plan of 3", b"plan of 4", 27),
    (PLAN, b"2 waits", b"1 wait", 27),
    (PLAN, b"2 waits", b"3 waits", 27),
    (CIRCLE, b"4 waits", b"3 waits", 17),
    (CIRCLE, b"4 waits", b"5 waits", 17),
    (CIRCLE, b", 1 in bold", b", 2 in bold", 17),
    (CIRCLE, b", 1 in bold", b", 4 in bold", 17),
    (CIRCLE, b", 1 in bold", b", 0 in bold", 2),
    (CIRCLE, b", 1 in bold", b", 1 wait in bold", 2),
    (CIRCLE, b", 1 in bold", b"", 2),
    (CIRCLE, rb"\lBold: enough to hang it, in the fewest steps.", b"", 2),
    (CIRCLE, b"penwidth=4", b"style=bold", 17),
    (BARE, b", 2 to no rescuer, 1 in bold", b", 1 in bold, 2 to no rescuer", 2),
    (BARE, b'"c" -> "c" [color=red, penwidth=4]', b'"c" -> "c" [color=red, style=bold]', 34),
    # The bold red ones must lead round, or be one that leads to no rescuer.
    (CIRCLE.replace(b", 1 in", b", 2 in"), b'"b" -> "b" [color=red, style=bold]', b'"b" -> "b" [color=red, penwidth=4]', 17),
    (BARE.replace(b", 1 in", b", 2 in"), b'"x" -> "a" [color=red, style=bold]', b'"x" -> "a" [color=red, penwidth=4]', 34),
    (EMPTY, b"plan of 0 workqueues", CIRCLE.split(b'"')[1].replace(b"4 waits", b"1 wait"), 5),
    (CIRCLE, CIRCLE.split(b'"')[1], b"safe", 17),
    (CIRCLE, CIRCLE.split(b'"')[1], PLAN.split(b'"')[1], 17),
    (PLAN, b'"d-d" -> "7" [style=bold]', b'"d-d" -> "7"', 27),
    (PLAN, b'"d-d" -> "7" [style=bold]', b'"d-d" -> "7" [color=red, style=bold]', 27),
    (PLAN, b'"d-d" -> "7" [style=bold]', b'"d-d" -> "7" [color=red, penwidth=4]', 27),
    (PLAN, b'"d-d" -> "7" [style=bold]', b'"c_c" -> "7" [style=bold]', 27),
    (PLAN, b'"c_c" -> "a"', b'"c_c" -> "a" [style=bold]', 27),
    (PLAN, b'"c_c" -> "a"', b'"a" -> "c_c"', 27),
    (PLAN, b'"c_c" -> "a"', b'"a" -> "7"', 27),
    (EMPTY.replace(b"0 workqueues", b"1 workqueue"), b"}\n",
     b'  subgraph "cluster wq 0" {\n' + LOOKS_OF_1.replace(b"wq 1", b"wq 0") + b"  }\n}\n", 8),
]


def fault_line(text):
    """The line at fault, or None where the text is a drawing."""
    try:
        drawn.read(text)
    except drawn.NotADrawing as fault:
        return fault.args[0]
    return None


def good_failures():
    for text, wanted in GOOD:
        found = fault_line(text) or drawn.read(text)
        if found != wanted:
            yield f"{wanted.title}: wanted {wanted}, found {found}"


def broken_failures():
    for text, old, new, wanted in BROKEN:
        if text.count(old) != 1:
            yield f"{old!r} stands {text.count(old)} times"
            continue
        found = fault_line(text.replace(old, new))
        if found != wanted:
            yield f"{new!r} in the place of {old!r}: wanted a fault of line {wanted}, found {found}"


def changed(text):
    """The text with each byte taken out, with a byte put in at each place, and each of its fronts."""
    for at in range(len(text)):
        yield text[:at]
        yield text[:at] + text[at + 1:]
        for byte in b' \t\r\n";a0-{}[\\#':
            yield text[:at] + bytes([byte]) + text[at:]
            if text[at] != byte:
                yield text[:at] + bytes([byte]) + text[at + 1:]


def changed_failures():
    """A text that differs by a byte draws something else, if anything."""
    for text, drawing in GOOD:
        for other in changed(text):
            if fault_line(other) is None and drawn.read(other) == drawing and other != text:
                yield f"{drawing.title}: {other!r} is read as the same"


def main():
    failures = [*good_failures(), *broken_failures(), *changed_failures()]
    print("\n".join(f"FAILED  {failure}" for failure in failures) if failures else
          f"dot: {len(GOOD)} drawings are read, {len(BROKEN)} broken texts refused")
    return 1 if failures else 0


if __name__ == "__main__":
    sys.exit(main())
