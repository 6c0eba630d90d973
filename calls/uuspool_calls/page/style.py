"""What the page looks like."""

POLICY = "default-src 'none'; style-src 'unsafe-inline'; base-uri 'none'; form-action 'none'"

PATTERNS = """<svg class="patterns" aria-hidden="true"><defs>
<pattern id="wait-lines" width="6" height="6" patternUnits="userSpaceOnUse" patternTransform="rotate(45)">
<rect class="dark" width="1.6" height="6"/><rect class="light" x="1.6" width="1.6" height="6"/></pattern>
<pattern id="skip-lines" width="5" height="5" patternUnits="userSpaceOnUse"><path d="M0 0l5 5M5 0L0 5"/></pattern>
</defs></svg>"""

STYLE = """
:root { color-scheme: light dark; --page: #f6f7f8; --card: #ffffff; --ink: #1a2026; --soft: #59636e; --line: #dde2e7;
  --track: #e9edf1; --tick: #d3dae1; --open: #14578a; --mark: #c2410c; --rim: #ffffff; --warn: #9a3412; --warmth: #fdf1e9;
  --hatch: #1a2026; --gap: #ffffff; }
@media (prefers-color-scheme: dark) { :root { --page: #12161a; --card: #191f25; --ink: #e4e9ee; --soft: #9aa6b2; --line: #2b343d;
  --track: #252d35; --tick: #34404b; --open: #74b9f0; --mark: #ff9a52; --rim: #12161a; --warn: #ffb37c; --warmth: #2c211a;
  --hatch: #0c0f12; --gap: #dfe6ec; } }
* { box-sizing: border-box; }
body { margin: 0 auto; padding: 24px 20px 48px; max-width: 1680px; background: var(--page); color: var(--ink);
  font: 14px/1.4 system-ui, -apple-system, "Segoe UI", Roboto, "Noto Sans", sans-serif; font-variant-numeric: tabular-nums; }
h1 { font-size: 26px; line-height: 1.2; margin: 0; letter-spacing: -.01em; }
h2 { font-size: 16px; margin: 28px 0 8px; }
header p { margin: 4px 0 0; color: var(--soft); }
a { color: inherit; text-decoration-color: var(--tick); text-underline-offset: 3px; }
small { font-size: 12px; color: var(--soft); }
.tiles { display: grid; grid-template-columns: repeat(6, 1fr); gap: 10px; margin: 18px 0 12px; }
.tiles div { background: var(--card); border: 1px solid var(--line); border-radius: 8px; padding: 10px 14px; }
.tiles dt { font-size: 12px; color: var(--soft); }
.tiles dd { margin: 0; font-size: 22px; font-weight: 600; line-height: 1.3; }
.tiles dd.note { font-size: 12px; font-weight: 400; color: var(--soft); }
.notice, .tiles div { overflow-wrap: anywhere; }
.notice { margin: 6px 0; padding: 8px 14px; background: var(--card); border: 1px solid var(--line); border-left: 4px solid var(--soft);
  border-radius: 6px; }
.notice.warn { border-left-color: var(--mark); background: var(--warmth); }
.legend { display: flex; flex-wrap: wrap; gap: 4px 18px; margin: 0 0 10px; padding: 0; list-style: none; font-size: 12px; color: var(--soft); }
.legend li { display: flex; align-items: center; gap: 6px; }
.legend svg { width: 22px; height: 13px; background: var(--track); border-radius: 2px; }
.legend svg svg { background: none; }
.board { display: grid; grid-template-columns: 418px 326px minmax(0, 1fr); background: var(--card); border: 1px solid var(--line);
  border-radius: 8px; font-size: 13px; }
.board table, .board thead, .board tbody, .board tfoot { display: contents; }
.board caption, .calls th:first-child { position: absolute; width: 1px; height: 1px; overflow: hidden; clip-path: inset(50%); white-space: nowrap; }
.board tr, .board figure, .days { grid-row: var(--n); display: grid; align-content: start; padding: 7px 0; border-top: 1px solid var(--line); }
.board thead tr, .days { position: sticky; top: 0; z-index: 2; padding: 8px 0; background: var(--card); border-top: 0;
  border-bottom: 1px solid var(--tick);
  border-radius: 8px 8px 0 0; font-size: 12px; font-weight: 600; color: var(--soft); }
.board tfoot tr { border-top: 1px solid var(--tick); font-weight: 600; }
.board tfoot time { font-weight: 400; }
.board th, .board td { padding: 0; text-align: left; font-weight: inherit; min-width: 0; }
.waits tr { grid-column: 1; grid-template-columns: minmax(0, 1fr) 50px 66px 56px 130px; padding-left: 12px !important; }
.waits tbody th { font-weight: 600; overflow-wrap: anywhere; padding-right: 4px; }
.calls tr { grid-column: 2; grid-template-columns: auto minmax(0, 1fr) 158px; column-gap: 4px; }
.calls .last { grid-area: 1 / 1 / 2 / 3; } .calls .next-call { grid-area: 1 / 3; }
.calls .failures { grid-area: 2 / 1; } .calls .went { grid-area: 2 / 2; } .calls .why { grid-area: 2 / 3; }
.calls thead .failures, .calls thead .went, .calls thead .why, .calls td.failures.none { display: none; }
.calls td.failures.none + .went { grid-column: 1 / 3; }
.calls tbody .failures::before { content: "failed "; } .calls tbody .failures::after { content: "\\00d7:"; }
.calls tbody .failures, .calls .went.failed { color: var(--warn); font-weight: 600; font-size: 12px; }
.calls .went, .calls .why { font-size: 12px; color: var(--soft); overflow-wrap: anywhere; padding-right: 8px; }
.calls tbody .went { max-height: 51px; overflow: hidden; }
.calls tfoot tr { grid-column: 2 / -1; grid-template-columns: 164px 158px; column-gap: 4px; }
.calls tfoot .went, .calls tfoot .why, .calls tfoot .last { display: none; }
.calls tfoot .failures { grid-area: 1 / 1; } .calls tfoot .next-call { grid-area: 1 / 2; }
.calls tfoot .failures::after { content: " failed"; } .calls tfoot .next-call::after { content: " due now"; }
td[data-note]::after { content: attr(data-note); display: block; font-size: 12px; font-weight: 400; color: var(--soft); }
td.why[data-note]::after { display: inline; padding-left: 5px; }
.calls tr[data-held]::after { content: attr(data-held); grid-area: 3 / 1 / 4 / 3; font-size: 12px; color: var(--soft); }
.board figure { grid-column: 3; margin: 0; padding-right: 14px; }
.days span::before { content: attr(data-label); }
.days { --n: 1; grid-column: 3; grid-template-columns: repeat(7, 1fr); gap: 2px; margin: 0; padding-right: 14px !important; }
.number { text-align: right !important; white-space: nowrap; }
.grade { text-align: center !important; }
.none { color: var(--soft); }
.badge { display: inline-block; padding: 0 7px; border: 1px solid var(--tick); border-radius: 9px; font-size: 11px;
  line-height: 16px; color: var(--soft); }
.badge.due { background: var(--open); border-color: var(--open); color: var(--card); font-weight: 600; }
.badge.never { background: var(--warmth); border-color: var(--mark); color: var(--warn); font-weight: 600; }
.week { display: grid; grid-template-columns: repeat(7, 1fr); gap: 2px; }
.day { display: block; }
.day > svg { display: block; width: 100%; height: 30px; overflow: visible;
  background: repeating-linear-gradient(to right, transparent 0 calc(25% - 1px), var(--tick) calc(25% - 1px) 25%) var(--track); }
.open { fill: var(--open); }
.wait { fill: url(#wait-lines); }
.skipped { fill: url(#skip-lines); }
.dark { fill: var(--hatch); } .light { fill: var(--gap); }
#skip-lines path { stroke: var(--soft); stroke-width: .8; }
.now line { stroke: var(--mark); stroke-width: 2; }
.next path { fill: var(--mark); stroke: var(--rim); stroke-width: 1.5; paint-order: stroke; }
.patterns { position: absolute; width: 0; height: 0; }
.details details { background: var(--card); border: 1px solid var(--line); border-radius: 6px; margin: 4px 0; }
.details summary { padding: 5px 12px; cursor: pointer; }
.details div { padding: 2px 14px 10px; overflow-x: auto; scroll-margin-top: 60px; }
.details table { border-collapse: collapse; margin: 4px 0 8px; font-size: 13px; }
.details th { font-size: 12px; font-weight: 600; color: var(--soft); }
.details th, .details td { text-align: left; vertical-align: top; padding: 2px 18px 2px 0; white-space: nowrap; }
.details .times, .details .words { white-space: normal; overflow-wrap: anywhere; }
.details p { margin: 4px 0; color: var(--soft); font-size: 13px; }
@media (max-width: 1150px) {
  .tiles { grid-template-columns: repeat(3, 1fr); }
  .board { grid-template-columns: 11fr 9fr; }
  .board thead tr, .board tbody tr, .board tfoot tr { grid-row: calc(2 * var(--n)); }
  .board figure, .days { grid-row: calc(2 * var(--n) + 1); grid-column: 1 / 3; padding: 0 14px 10px 12px !important; border-top: 0; }
  .days { top: 32px; border-radius: 0; }
  .board thead tr { border-bottom: 0; }
}
@media (max-width: 680px) {
  body { padding: 16px 12px 40px; }
  .tiles { grid-template-columns: repeat(2, 1fr); gap: 8px; }
  .board { grid-template-columns: 1fr; background: none; border: 0; font-size: 14px; }
  .board thead, .days { display: none; }
  .board tbody tr, .board tfoot tr, .board figure { grid-column: 1; grid-row: calc(3 * var(--n)); padding: 10px 12px 4px !important;
    background: var(--card); border: 1px solid var(--line); }
  .board .waits tr { grid-template-columns: auto auto auto 1fr; column-gap: 18px; border-radius: 8px 8px 0 0; border-bottom: 0; }
  .waits tbody th, .waits tfoot th { grid-column: 1 / -1; font-size: 16px; padding-bottom: 4px; }
  .board .calls tr { grid-row: calc(3 * var(--n) + 1); grid-template-columns: auto minmax(0, 1fr) minmax(0, 1fr); border-top: 0; border-bottom: 0; }
  .board figure { grid-row: calc(3 * var(--n) + 2); padding: 4px 12px 12px !important; margin-bottom: 10px;
    border-top: 0; border-radius: 0 0 8px 8px; }
  .board .calls tfoot tr { border-bottom: 1px solid var(--line); border-radius: 0 0 8px 8px; padding-bottom: 10px !important; }
  .board .number, .board .grade { text-align: left !important; }
  .waits .none:empty { display: none; }
  .board td[data-label]::before { content: attr(data-label); display: block; font-size: 11px; color: var(--soft); font-weight: 400; }
  .week { grid-template-columns: 1fr; gap: 3px; }
  .week::before { content: "0 6 12 18 24"; padding-left: 50px; font-size: 10px; line-height: 10px; color: var(--soft); text-align-last: justify; }
  .day { display: grid; grid-template-columns: 50px 1fr; align-items: center; }
  .jobs, .jobs thead, .jobs tbody { display: block; }
  .jobs tr { display: grid; grid-template-columns: 48px 44px minmax(0, 1fr) auto 62px; gap: 0 8px; padding: 3px 0; }
  .jobs tbody tr { border-top: 1px solid var(--line); }
  .details .jobs th, .details .jobs td { padding: 0; }
  .jobs td { overflow: hidden; text-overflow: ellipsis; }
  .jobs .words { grid-column: 1 / -1; }
  .jobs th:last-child { display: none; }
  .day::before { content: attr(data-label); font-size: 11px; color: var(--soft); }
  .day > svg { height: 14px; }
}
@media print { .board thead tr, .days { position: static; } }
"""
