"""The style of plain pages: readable from 360 pixels on, and on paper."""

STYLE = """:root{color-scheme:light}
body{font:16px/1.5 system-ui,"Liberation Sans",sans-serif;color:#161616;background:#fff;margin:0}
main,nav{max-width:64rem;margin:0 auto;padding:.5rem 1rem}
nav{border-bottom:1px solid #ccc;display:flex;flex-wrap:wrap;gap:.25rem 1rem}
h1{font-size:1.6rem;line-height:1.25;overflow-wrap:anywhere;margin:1rem 0 .5rem}
h2{font-size:1.2rem;margin:1.75rem 0 .5rem}
p,dd,li{overflow-wrap:anywhere}
a{color:#000091}
a:focus-visible,input:focus-visible,summary:focus-visible{outline:3px solid #0a76f6;outline-offset:2px}
code,pre,.name{font-family:"Liberation Mono",monospace;font-size:.9em}
pre{background:#f6f6f6;padding:.75rem;overflow-x:auto;line-height:1.45;margin:.5rem 0}
pre .name{font-size:1em}
pre.formula{white-space:pre-wrap;overflow-wrap:anywhere}
.wide{overflow-x:auto}
table{border-collapse:collapse;margin:.5rem 0}
th,td{text-align:left;vertical-align:top;padding:.3rem .75rem .3rem 0;border-bottom:1px solid #ddd}
td.number,th.number{text-align:right}
dl{display:grid;grid-template-columns:minmax(7rem,auto) 1fr;gap:.25rem 1rem;margin:.5rem 0}
dt{color:#555}dd{margin:0}
.said{color:#555}
ul.names{columns:12rem;padding-left:1.2rem}
ul.tree,ul.tree ul{list-style:none;padding-left:1rem;border-left:1px solid #ddd}
input{font:inherit;padding:.4rem;border:1px solid #555;width:100%;max-width:30rem;box-sizing:border-box}
.sheet{padding:0;background:none}
.sheet span.line{display:block;min-height:1.45em;padding-left:5em;text-indent:-5em;white-space:pre-wrap;overflow-wrap:anywhere}
.sheet .no{display:inline-block;width:4.5em;margin-right:.5em;text-indent:0;text-align:right;color:#666;user-select:none}
.sheet .whole{background:#e3f5e6}.sheet .part{background:#fff3cd}.sheet .none{background:#fde4e4}
.sheet u{text-decoration:underline 2px #b3000f;background:#fbc9c9}
.sheet span.line:target{outline:2px solid #0a76f6}
@media(max-width:32rem){.sheet span.line{padding-left:4.5em;text-indent:-4.5em}.sheet .no{width:4em}dl{grid-template-columns:1fr}dt{margin-top:.4rem}}
@media print{nav{display:none}}
"""
