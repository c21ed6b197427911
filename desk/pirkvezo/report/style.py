"""The page's style: light, dark and paper. No font, picture or script comes from elsewhere."""

STYLE = """
:root { color-scheme: light dark; --ink: #1c2024; --soft: #5c6670; --paper: #ffffff;
  --line: #d4d9de; --band: #f3f5f7; --bad: #b3261e; --good: #1d6b3a; --arrow: #1f4fbf;
  --d0: #a9d0ee; --d1: #fbcf9b; --d2: #bfe3ad; --d3: #dcc0ec; --d4: #f6b3b3; --d5: #addfd8;
  --d6: #ebdc97; --d7: #d2cac0; --kernel: #8a939c; }
@media screen and (prefers-color-scheme: dark) {
:root { --ink: #e6e9ec; --soft: #9ba6b1; --paper: #14181c; --line: #3a424a; --band: #1d2329;
  --bad: #ff8a80; --good: #7ddb9a; --arrow: #8fb4ff;
  --d0: #27516f; --d1: #734818; --d2: #36602b; --d3: #573b70; --d4: #7a3636; --d5: #1f5f58;
  --d6: #625718; --d7: #57514a; --kernel: #5a636c; } }
* { box-sizing: border-box; }
body { margin: 0 auto; padding: 1.5rem; max-width: 72rem; background: var(--paper);
  color: var(--ink); font: 16px/1.5 system-ui, sans-serif; }
h1 { font-size: 1.5rem; margin: 0 0 .3rem; overflow-wrap: anywhere; }
h2 { font-size: 1.15rem; margin: 2rem 0 .5rem; }
h3 { font-size: 1rem; margin: 1.2rem 0 .3rem; }
p { margin: .4rem 0; } .note { color: var(--soft); font-size: .875rem; }
.good { color: var(--good); font-weight: 600; } .bad { color: var(--bad); font-weight: 600; }
.scroll { overflow-x: auto; }
table { border-collapse: collapse; font-size: .875rem; font-variant-numeric: tabular-nums; }
th, td { padding: .2rem .6rem; border-bottom: 1px solid var(--line); text-align: right;
  vertical-align: top; white-space: nowrap; }
th { background: var(--band); font-weight: 600; }
.records td:nth-child(3), .records th:nth-child(3), .records td:nth-child(4),
.records th:nth-child(4), td:first-child, th:first-child { text-align: left; }
pre { background: var(--band); padding: .6rem; overflow-x: auto; font-size: .8125rem;
  line-height: 1.4; margin: .4rem 0; } pre .n { color: var(--soft); user-select: none; }
.byte { background: var(--bad); color: var(--paper); font-weight: 400; }
pre .at { color: var(--bad); font-weight: 700; } code { font-size: .875rem; }
details { margin: .4rem 0; } summary { cursor: pointer; }
.picture { display: block; width: 100%; min-width: 44rem; height: auto; margin: .4rem 0; }
.picture text { fill: var(--ink); font: 11px system-ui, sans-serif; }
.picture .big { font-size: 17px; text-anchor: middle; }
.picture .small { font-size: 11px; text-anchor: middle; }
.picture .axis { fill: var(--soft); font-size: 10px; } .picture .end { text-anchor: end; }
.picture .op { fill: #ffffff; font-size: 10px; font-weight: 700; text-anchor: middle;
  pointer-events: none; }
.picture path.lane { stroke: var(--line); fill: none; }
.hatch { stroke: var(--soft); stroke-width: 2; opacity: .55; }
.message { fill: none; stroke: var(--arrow); stroke-width: 1.6; } .tip { fill: var(--arrow); }
.edge { stroke: var(--bad); stroke-width: 2; }
.unsold, .picture rect.pad { fill: url(#hatch); stroke: var(--line); }
.key.pad { background: repeating-linear-gradient(45deg, var(--soft) 0 2px, transparent 2px 5px); }
.key.arrow { color: var(--arrow); background: none; }
.kernel { fill: var(--kernel); background: var(--kernel); }
.d0 { fill: var(--d0); } .d1 { fill: var(--d1); } .d2 { fill: var(--d2); } .d3 { fill: var(--d3); }
.d4 { fill: var(--d4); } .d5 { fill: var(--d5); } .d6 { fill: var(--d6); } .d7 { fill: var(--d7); }
.hit1 { fill: #1f8a4c; background: #1f8a4c; } .hit2 { fill: #5c7a12; background: #5c7a12; }
.miss { fill: #c4401f; background: #c4401f; } .sent { fill: #1f5fc4; background: #1f5fc4; }
.got { fill: #7136c4; background: #7136c4; } .empty { fill: #74747e; background: #74747e; }
.denied { fill: #a80f63; background: #a80f63; } .ran { fill: #47627a; background: #47627a; }
.barred { fill: #2a2a2a; background: #2a2a2a; stroke: var(--soft); }
.key.barred { outline: 1px solid var(--soft); }
.legend { display: flex; flex-wrap: wrap; gap: .2rem 1rem; font-size: .8125rem; }
.chip { white-space: nowrap; } .key { display: inline-block; width: 1.2em; height: 1.2em;
  line-height: 1.2em; text-align: center; color: #ffffff; font-weight: 700; border-radius: 2px; }
.swatch { display: inline-block; width: .9em; height: .9em; border-radius: 2px;
  vertical-align: -.1em; margin-right: .35em; border: 1px solid var(--line); }
@media print { body { max-width: none; padding: 0; font-size: 11pt; }
  * { print-color-adjust: exact; -webkit-print-color-adjust: exact; }
  tr, h2, h3, svg { break-inside: avoid; } h2, h3, .legend { break-after: avoid; }
  .scroll, pre { overflow: visible; } .picture { min-width: 0; } table { font-size: 8pt; }
  pre { white-space: pre-wrap; } }
"""
