"""How the page looks, by day and by night."""

STYLE = (
    """
:root{--ground:#fff;--box:#f6f7f8;--ink:#1b1f23;--faint:#5d6670;--line:#d9dde1;--link:#1257a8;
--k0:#2f9e6e;--k1:#93d2b3;--k2:#c8b23a;--k3:#3d7fd0;--k4:#93bcef;--k5:#8a6cc4;--k6:#a4abb3;--k7:#69727c;
--k8:#e79a2b;--k9:#cf3a3f;--k10:#7b4b2a}
@media (prefers-color-scheme:dark){:root{--ground:#15181b;--box:#1f2327;--ink:#e6e9ec;--faint:#9aa4ae;
--line:#343a41;--link:#79b3f2;
--k0:#38b27d;--k1:#2c6d50;--k2:#b09a2e;--k3:#4b8fe2;--k4:#33598a;--k5:#9c7fd8;--k6:#828a93;--k7:#565e67;
--k8:#d98f2a;--k9:#e2555a;--k10:#a9744f}}
*{box-sizing:border-box}
body{margin:0 auto;max-width:1200px;padding:16px;background:var(--ground);color:var(--ink);
font:15px/1.45 system-ui,sans-serif}
h1{font-size:22px;margin:0;overflow-wrap:anywhere}h2{font-size:16px;margin:0 0 6px}h3{font-size:14px;
margin:0 0 4px;overflow-wrap:anywhere}
p{margin:0 0 10px;color:var(--faint)}a{color:var(--link)}code{font:13px ui-monospace,monospace}
section{background:var(--box);border:1px solid var(--line);border-radius:6px;padding:12px;margin:0 0 14px;
min-width:0}
.tiles{display:grid;grid-template-columns:repeat(auto-fit,minmax(220px,1fr));gap:14px;margin-bottom:14px}
.tiles div{background:var(--box);border:1px solid var(--line);border-radius:6px;padding:12px}
.tiles h2{font-size:13px;color:var(--faint);font-weight:normal;margin:0}.tiles b{font-size:26px}
.tiles p{font-size:13px;margin:0}
.pair{display:grid;grid-template-columns:repeat(auto-fit,minmax(min(100%,440px),1fr));gap:0 14px}
.picture{overflow-x:auto}svg{display:block;width:100%;min-width:640px;height:auto}svg text{fill:var(--faint);
font:11px system-ui,sans-serif}
.scale line{stroke:var(--line);stroke-width:.7}.hints rect{fill:transparent}.hints rect:hover{fill:var(--ink);
fill-opacity:.12}
.legend{list-style:none;display:flex;flex-wrap:wrap;gap:4px 16px;margin:8px 0 0;padding:0}
.legend i{display:inline-block;width:12px;height:12px;border-radius:3px;margin-right:5px;vertical-align:-1px}
.wide{overflow-x:auto}table{border-collapse:collapse;width:100%}
th{font-weight:normal;color:var(--faint);text-align:right;padding:2px 8px;font-size:13px}
th:first-child,th:last-child{text-align:left}
td{padding:2px 8px;border-top:1px solid var(--line);vertical-align:top}
.name{overflow-wrap:anywhere;font:13px/1.5 ui-monospace,monospace;min-width:110px}.number{text-align:right;
white-space:nowrap;font-variant-numeric:tabular-nums}
.why{width:32%;min-width:150px;overflow-wrap:anywhere}.bar{width:20%;min-width:60px}.bar div{height:12px;
margin-top:5px;border-radius:2px;min-width:1px;background:var(--faint)}
article{border-top:1px solid var(--line);padding:10px 0}article:target{background:var(--ground);
outline:2px solid var(--link);outline-offset:4px}
dl{display:grid;grid-template-columns:minmax(90px,max-content) 1fr;gap:2px 12px;margin:0}dt{color:var(--faint)}
dd{margin:0;overflow-wrap:anywhere;min-width:0}
"""
    + "".join(f"path.k{it}{{fill:var(--k{it})}}i.k{it},.bar .k{it}{{background:var(--k{it})}}" for it in range(11))
    + "\n"
)
