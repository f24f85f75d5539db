"""How the elements of pictures look, and what the colours mean."""

# How the elements look, in the light and in the dark.
STYLE = """\
<style>
svg { background: #ffffff; font-family: Helvetica, Arial, sans-serif; font-size: 10px; }
text { fill: #1f2430; }
.number { fill: #7a8194; text-anchor: middle; }
.lane { font-size: 12px; font-weight: bold; }
.again { fill: #7a8194; font-size: 9px; }
.node { stroke: #1f2430; stroke-width: 1.5; }
.server { stroke: #1f2430; stroke-width: 1.5; stroke-dasharray: 2 3; }
.dead { stroke: #c43d3d; stroke-width: 1.5; stroke-dasharray: 1 9; }
.process { stroke: #c9cdd8; }
.column { stroke: #e6e8ee; }
.dot { fill: #1f2430; }
.word { fill: #4a5163; font-size: 9px; stroke: #ffffff; stroke-width: 3; paint-order: stroke; }
.arrow { stroke: #7a8194; marker-end: url(#head); }
.head { fill: #7a8194; }
.undelivered { stroke: #c43d3d; }
.gone { fill: #c43d3d; font-size: 9px; stroke: #ffffff; stroke-width: 3; paint-order: stroke;\
 dominant-baseline: middle; }
.rule { stroke: #c43d3d; stroke-width: 1.5; stroke-dasharray: 6 3; }
.rule-name { fill: #c43d3d; font-weight: bold; }
.done { fill: #c5e8d8; stroke: #2f9e6e; }
.denied { fill: #fbe3b5; stroke: #b87503; }
.refused { fill: #f6cccc; stroke: #c43d3d; }
.open { fill: #eceef3; stroke: #7a8194; stroke-dasharray: 4 2; }
.cycle { stroke: #c43d3d; stroke-width: 2; }
.place { fill: #ffffff; stroke: #1f2430; }
.link { stroke: #1f2430; stroke-dasharray: 1 3; }
.late { stroke: #7a8194; stroke-dasharray: 8 4; }
.edge { stroke: #c9cdd8; }
.bytes { font-size: 8px; }
.holder { fill: #7a8194; font-size: 8px; text-anchor: end; }
.n1 { fill: #3d74b8; }
.n2 { fill: #d9822b; }
.n3 { fill: #3f9c56; }
.n4 { fill: #8d5fc2; }
.n5 { fill: #c2487f; }
.n6 { fill: #2f9aa0; }
.n7 { fill: #8f7a1f; }
.n8 { fill: #7c5a46; }
.shared { fill-opacity: 0.4; }
.lock { fill: none; stroke: #1f2430; stroke-width: 1.5; }
.read { stroke-dasharray: 3 2; }
.plate { fill: #ffffff; }
.mark { font-size: 8px; }
.calls { fill: #2f9e6e; }
.sent { fill: #3d74b8; }
.received { fill: #8d5fc2; }
.held { fill: #b87503; }
@media (prefers-color-scheme: dark) {
svg { background: #14171f; }
text { fill: #e6e8ee; }
.number, .again { fill: #8f97aa; }
.node, .server { stroke: #c9cdd8; }
.process { stroke: #3a4152; }
.column { stroke: #262b38; }
.dot { fill: #e6e8ee; }
.word { fill: #b8bfcf; stroke: #14171f; }
.arrow { stroke: #8f97aa; }
.head { fill: #8f97aa; }
.undelivered { stroke: #ff7b7b; }
.gone { fill: #ff7b7b; stroke: #14171f; }
.rule-name { fill: #ff7b7b; }
.rule { stroke: #ff7b7b; }
.done { fill: #1d4d39; stroke: #4fc796; }
.denied { fill: #5a4210; stroke: #e8aa3a; }
.refused { fill: #5e2626; stroke: #ff7b7b; }
.open { fill: #2a3040; stroke: #8f97aa; }
.place { fill: #14171f; stroke: #e6e8ee; }
.link { stroke: #e6e8ee; }
.late { stroke: #8f97aa; }
.edge { stroke: #3a4152; }
.holder { fill: #8f97aa; }
.n1 { fill: #5c97e0; }
.n2 { fill: #e69a4c; }
.n3 { fill: #5cbb75; }
.n4 { fill: #a983dc; }
.n5 { fill: #dd6d9f; }
.n6 { fill: #4db9bf; }
.n7 { fill: #b8a23f; }
.n8 { fill: #a8816b; }
.lock { stroke: #ffffff; }
.plate { fill: #14171f; }
.calls { fill: #4fc796; }
.sent { fill: #5c97e0; }
.received { fill: #a983dc; }
.held { fill: #e8aa3a; }
}
</style>
"""

# The head of an arrow, a diamond, and what the boxes of tokens and locks mean.
DEFINITIONS = """\
<defs>
<marker id='head' viewBox='0 0 8 8' refX='8' refY='4' markerWidth='7' markerHeight='7'\
 orient='auto'><path class='head' d='M0 0L8 4L0 8Z'/></marker>
<path id='place' d='M0 -5L5 0L0 5L-5 0Z'/>
<g id='key'>
<rect class='n1 shared' x='0' y='2' width='14' height='12' rx='3'/><text x='18' y='12'>shared\
</text>
<rect class='n1 exclusive' x='56' y='2' width='14' height='12' rx='3'/>\
<text x='74' y='12'>exclusive</text>
<rect class='lock read' x='126' y='3' width='14' height='10' rx='3'/>\
<text x='144' y='12'>read lock</text>
<rect class='lock write' x='196' y='3' width='14' height='10' rx='3'/>\
<text x='214' y='12'>write lock</text>
</g>
</defs>
"""

# What the colours and the diamond mean.
LEGEND = """\
<rect class='done' x='12' y='8' width='10' height='10' rx='2'/><text x='26' y='17'>done</text>
<rect class='denied' x='68' y='8' width='10' height='10' rx='2'/><text x='82' y='17'>denied</text>
<rect class='refused' x='12' y='24' width='10' height='10' rx='2'/><text x='26' y='33'>refused\
</text>
<rect class='open' x='68' y='24' width='10' height='10' rx='2'/><text x='82' y='33'>open</text>
<use class='place' href='#place' x='17' y='45'/><text x='26' y='49'>in history</text>
<line class='undelivered' x1='82' y1='45' x2='94' y2='45'/>\
<text class='gone' x='98' y='45'>not delivered</text>
"""

# What the colours of an overview mean.
OVERVIEW_LEGEND = """\
<rect class='calls' x='130' y='26' width='10' height='10'/><text x='144' y='35'>calls</text>
<rect class='sent' x='184' y='26' width='10' height='10'/><text x='198' y='35'>messages sent</text>
<rect class='received' x='280' y='26' width='10' height='10'/>\
<text x='294' y='35'>messages received</text>
<rect class='held' x='396' y='26' width='10' height='10'/><text x='410' y='35'>locks at the end\
</text>
<line class='rule' x1='502' y1='26' x2='502' y2='36'/><text x='510' y='35'>a failure or a start\
</text>
"""
