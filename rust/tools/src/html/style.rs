//! How a page looks, on a screen and on paper. No character of it needs to be escaped.

pub const STYLE: &str = "
body { margin: 0 auto; padding: 24px 32px 48px; max-width: 1100px; color: #222222;
  background: #ffffff; font: 15px/1.45 sans-serif; }
h1 { margin: 0 0 4px; font-size: 26px; overflow-wrap: anywhere; }
h2 { margin: 0 0 10px; padding-bottom: 4px; border-bottom: 2px solid #1b4f8a; font-size: 20px; }
h3 { margin: 22px 0 6px; font-size: 15px; }
p { margin: 6px 0; overflow-wrap: anywhere; }
header { margin-bottom: 24px; }
section { margin: 0 0 44px; }
nav { margin: 14px 0; }
nav a { display: inline-block; margin: 2px 14px 2px 0; color: #1b4f8a; }
table { border-collapse: collapse; font-variant-numeric: tabular-nums; font-size: 14px; }
th, td { padding: 3px 10px; text-align: right; white-space: nowrap; vertical-align: top; }
th { border-bottom: 1px solid #8a8a8a; vertical-align: bottom; font-weight: bold; }
th:first-child, td:first-child { padding-left: 4px; text-align: left; }
td.words { text-align: left; white-space: normal; }
table.steps td.words { white-space: nowrap; }
tr.first td { border-top: 1px solid #c4c9ce; }
tr.sum td { border-top: 1px solid #222222; font-weight: bold; }
tr.none td { color: #767676; }
tr.marked td { font-weight: bold; background: #eef1f4; }
table.wide { width: 100%; font-size: 13px; }
table.wide th, table.wide td { padding: 3px 7px; }
table.wide th { white-space: normal; }
table.lines td:first-child, table.lines td:last-child { text-align: left; white-space: normal; }
table.facts td { text-align: left; white-space: normal; overflow-wrap: anywhere; }
table.facts td:first-child { padding-right: 24px; white-space: nowrap; color: #555555; }
td.bar { width: 320px; padding-top: 7px; }
svg.share { display: block; width: 100%; height: 13px; background: #eef1f4; }
svg.drawing { display: block; width: 100%; height: auto; margin: 14px 0 6px; }
.beside { display: flex; flex-wrap: wrap; gap: 22px 64px; }
.currencies h3 { margin-top: 0; line-height: 24px; }
.note { color: #555555; }
.total { margin: 10px 0 4px; font-size: 20px; font-weight: bold; }
.refused { padding: 10px 16px; border: 2px solid #b04a00; font-size: 18px; font-weight: bold; }
@media print {
  @page { size: A4; margin: 11mm 12mm; }
  body { max-width: none; padding: 0; font-size: 9pt; line-height: 1.2;
    print-color-adjust: exact; -webkit-print-color-adjust: exact; }
  h1 { font-size: 18pt; }
  h2 { margin-bottom: 5pt; font-size: 14pt; }
  h3 { margin: 6pt 0 1pt; font-size: 10pt; }
  p { margin: 3pt 0; }
  table { font-size: 8pt; }
  th, td { padding: 0.8pt 4pt; }
  table.wide { font-size: 7pt; }
  table.wide th, table.wide td { padding: 0.7pt 2.5pt; }
  td.bar { width: 200px; padding-top: 2pt; }
  svg.share { height: 8pt; }
  svg.drawing { width: 88%; margin: 6pt auto 0; }
  .beside { display: block; }
  .currencies h3 { margin-top: 12pt; }
  nav { display: none; }
  section { margin-bottom: 20pt; }
  section.ladder { margin-bottom: 0; break-before: page; }
  h2, h3 { break-after: avoid; }
  table, svg.drawing, tr { break-inside: avoid; }
}
";
