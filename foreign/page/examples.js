"use strict";

/* What the list of examples has. The first one is shown where the link carries no rules. */
const EXAMPLES = {
    "Two latches": `mortice = LT{size}{finish}
  size   = [0-9][0-9]
  finish = BR | CH | SS

rim     = LT{set}C{turn}     # with a cylinder
  set    = [0-9]+
  turn   = H | K | T         # handle, key or thumb turn
`,
    "Spaces at the end": `lt = LT{x}
l  = L{y}
  y = [A-Z]
`,
    "A field twice": `keypad = KP{n}-{n}
  n = [0-9]+
door   = KP{code}
  code = [0-9]{2}-.*
`,
    "Full ASCII": `full ascii

box   = Box\\s{size}\\#{n}
  size = [a-z]+
  n    = [0-9]+
note  = Box\\s{rest}
`,
    "Not decided": `left  = {n}{kind}-A1{n}
right = {n}{kind}-A2{n}
`,
};
