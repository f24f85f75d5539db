"""How the elements of the picture of a judgement look, and what the colours mean."""

# How the elements look, in the light and in the dark.
STYLE = """\
<style>
svg { background: #ffffff; font-family: Helvetica, Arial, sans-serif; font-size: 9px; }
text { fill: #1f2430; }
.heading { font-size: 12px; font-weight: bold; }
.owner { font-size: 10px; font-weight: bold; }
.number { fill: #7a8194; text-anchor: middle; }
.time, .row { stroke: #e6e8ee; }
.done { fill: #c5e8d8; stroke: #2f9e6e; }
.denied { fill: #fbe3b5; stroke: #b87503; }
.open { fill: #eceef3; stroke: #7a8194; stroke-dasharray: 4 2; }
.misfit, .in-way { fill: #f6cccc; stroke: #c43d3d; stroke-width: 2; }
.asked { fill: none; stroke: #c43d3d; stroke-dasharray: 4 2; }
.read { fill: #d9e5f5; stroke: #3d74b8; stroke-dasharray: 3 2; }
.write { fill: #a9c4e8; stroke: #3d74b8; }
@media (prefers-color-scheme: dark) {
svg { background: #14171f; }
text { fill: #e6e8ee; }
.number { fill: #8f97aa; }
.time, .row { stroke: #262b38; }
.done { fill: #1d4d39; stroke: #4fc796; }
.denied { fill: #5a4210; stroke: #e8aa3a; }
.open { fill: #2a3040; stroke: #8f97aa; }
.misfit, .in-way { fill: #5e2626; stroke: #ff7b7b; }
.asked { stroke: #ff7b7b; }
.read { fill: #1e2f47; stroke: #5c97e0; }
.write { fill: #28466e; stroke: #5c97e0; }
}
</style>
"""

# What the colours mean.
LEGEND = """\
<rect class='misfit' x='12' y='8' width='10' height='10' rx='2'/>\
<text x='26' y='17'>fits nowhere, in the way</text>
<rect class='done' x='140' y='8' width='10' height='10' rx='2'/><text x='154' y='17'>done, free\
</text>
<rect class='denied' x='212' y='8' width='10' height='10' rx='2'/>\
<text x='226' y='17'>again, blocked</text>
<rect class='open' x='300' y='8' width='10' height='10' rx='2'/><text x='314' y='17'>no reply\
</text>
"""
