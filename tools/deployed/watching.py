"""What watches the figures: the alerts and the dashboard of deploy/. Each alert is tried on series that have what it is for, and on a calm day."""
import json
import os
import re
import subprocess
import urllib.request

from deployed.stand import DEPLOY, need, part, wait_until
from live.expect import Skipped, Unexpected, expect
from live.origin import Origin, whole
from live.scenario import KEPT

RULES, DASHBOARD = f"{DEPLOY}/prometheus-alerts.yml", f"{DEPLOY}/grafana-dashboard.json"
BAD_DAYS = f"{os.path.dirname(DEPLOY)}/docs/BAD_DAYS.md"
NAME = re.compile(r"\brevcache_[a-z_]+")
# A calm day, a value each minute: what each figure does where nothing is amiss. `a+bxn` begins with a and grows by b, n times.
CALM = {
    "revcache_stats_time_seconds": "0+60x3000",
    "revcache_start_time_seconds": "0x3000",
    'revcache_origin_failures_total{origin="o",kind="refused"}': "0x3000",
    'revcache_origin_failures_total{origin="o",kind="timed-out"}': "0x3000",
    'revcache_origin_exchanges_total{origin="o"}': "0+600x3000",
    'revcache_origin_responses_total{origin="o",code="2xx"}': "0+600x3000",
    'revcache_origin_responses_total{origin="o",code="5xx"}': "0+1x3000",
    "revcache_oldest_exchange_age_seconds": "2x3000",
    'revcache_origin_connections_refused_total{origin="o",cause="limit"}': "0x3000",
    'revcache_origin_connections_refused_total{origin="o",cause="silent"}': "0x3000",
    'revcache_unanswered_requests_total{cause="closed"}': "0+3x3000",
    'revcache_unanswered_requests_total{cause="abandon-timeout"}': "0+3x3000",
    'revcache_connections_refused_total{cause="full"}': "0x3000",
    'revcache_connections_refused_total{cause="descriptors"}': "0x3000",
    'revcache_connections_refused_total{cause="memory"}': "0x3000",
    'revcache_connections_cut_total{cause="memory"}': "0x3000",
    'revcache_connections_cut_total{cause="content-limit"}': "0x3000",
    "revcache_links_without_descriptor_total": "0x3000",
    "revcache_links_without_port_total": "0x3000",
    'revcache_turns_cut_total{cause="memory"}': "0x3000",
    "revcache_content_bytes": "1000x3000",
    "revcache_content_limit_bytes": "1073741824x3000",
    'revcache_refusals_total{cause="head"}': "0+1x3000",
    'revcache_refusals_total{cause="denied"}': "0+6000x3000",
    'revcache_refusals_total{cause="loop"}': "0x3000",
    'revcache_requests_total{reason="hit",detail=""}': "0+900x3000",
    'revcache_requests_total{reason="uri-miss",detail=""}': "0+100x3000",
    "revcache_store_capacity_responses": "1000x3000",
    "revcache_store_evictions_total": "0+5x3000",
    "revcache_log_lost_lines_total": "0x3000",
    'revcache_record_state{state="ended"}': "0x3000",
    "revcache_draining": "0x3000",
}
# When it is looked: behind three hours, or behind 26 for what is held against the day before.
SOON, LATE = "3h", "26h"
# Hits that end 80 minutes before; starts, one a minute, in the last ten.
FEWER = "0+900x1480 1332000+0x1500"
STARTS = " ".join(str(60 * it) for it in range(171, 181))
# By alert: the series that differ from a calm day.
TROUBLE = {
    "RevcacheStandsStill": [{"revcache_stats_time_seconds": "0+60x170 10200x3000"}],
    "RevcacheEndsAgainAndAgain": [{"revcache_start_time_seconds": f"0x170 {STARTS} 10800x3000"}],
    "RevcacheOriginDown": [{'revcache_origin_failures_total{origin="o",kind="refused"}': "0+100x3000"}],
    "RevcacheOriginSilent": [{'revcache_origin_failures_total{origin="o",kind="timed-out"}': "0+10x3000"}],
    "RevcacheOriginRefused": [{f'revcache_origin_connections_refused_total{{origin="o",cause="{it}"}}': "0+10x3000"} for it in ("limit", "silent")],
    "RevcacheExchangeHangs": [{"revcache_oldest_exchange_age_seconds": "0+1x3000"}],
    "RevcacheOriginErrors": [{'revcache_origin_responses_total{origin="o",code="5xx"}': "0+60x3000"}],
    "RevcacheClientsLeave": [{f'revcache_unanswered_requests_total{{cause="{it}"}}': "0+500x3000"} for it in ("closed", "abandon-timeout")],
    "RevcacheConnectionsFull": [{'revcache_connections_refused_total{cause="full"}': "0+1x3000"}],
    "RevcacheDescriptors": [{'revcache_connections_refused_total{cause="descriptors"}': "0+1x3000"}, {"revcache_links_without_descriptor_total": "0+1x3000"}],
    "RevcachePorts": [{"revcache_links_without_port_total": "0+1x3000"}],
    "RevcacheMemory": [{f'revcache_{it}_total{{cause="memory"}}': "0+1x3000"} for it in ("turns_cut", "connections_refused", "connections_cut")],
    "RevcacheContentFull": [{"revcache_content_bytes": "900000000x3000"}, {'revcache_connections_cut_total{cause="content-limit"}': "0+1x3000"}],
    "RevcacheLoop": [{'revcache_refusals_total{cause="loop"}': "0+1x3000"}],
    "RevcacheHostileMessages": [{'revcache_refusals_total{cause="head"}': "0+1200x3000"}],
    "RevcacheFewHits": [{'revcache_requests_total{reason="hit",detail=""}': FEWER}],
    "RevcacheStoreTooSmall": [{"revcache_store_evictions_total": "0+100x3000"}],
    "RevcacheLogLosesLines": [{"revcache_log_lost_lines_total": "0+1x3000"}],
    "RevcacheRecordEnded": [{'revcache_record_state{state="ended"}': "1x3000"}],
    "RevcacheDrains": [{"revcache_draining": "1x3000"}],
}


def promtool(*words):
    ran = subprocess.run(["promtool", *words], capture_output=True, text=True, timeout=300)
    if ran.returncode:
        raise Unexpected(f"from promtool {' '.join(words)}", "status 0", (ran.returncode, (ran.stdout + ran.stderr)[-1500:]))
    return ran.stdout


def names_of_alerts():
    with open(RULES, encoding="utf-8") as it:
        return re.findall(r"- alert: (\w+)", it.read())


@part
def alerts(stand):
    need("promtool")
    yield "promtool_reads_the_rules", lambda: promtool("check", "rules", RULES).split("SUCCESS: ")[1].split("\n")[0]
    yield "each_alert_has_its_bad_day", each_alert_has_its_bad_day
    calm = [asked(it, False, when) for it in names_of_alerts() for when in (SOON, LATE)]
    yield "no_alert_on_a_calm_day", lambda: played(stand, "calm", [day({}, calm)])
    yield "each_alert_comes_with_its_trouble", lambda: each_alert_comes_with_its_trouble(stand)


def each_alert_has_its_bad_day():
    """It names a heading of docs/BAD_DAYS.md, and stands below that heading."""
    with open(BAD_DAYS, encoding="utf-8") as it:
        parts = it.read().split("\n### ")[1:]
    below = {re.sub(r"[^a-z0-9 -]", "", head.lower()).replace(" ", "-"): text for head, _, text in (it.partition("\n") for it in parts)}
    with open(RULES, encoding="utf-8") as it:
        named = re.findall(r"- alert: (\w+)\n(?:.*\n)*? +runbook: docs/BAD_DAYS.md#(\S+)\n", it.read())
    expect("alerts with a heading", names_of_alerts(), [it for it, _ in named])
    for alert, heading in named:
        expect(f"{alert} below {heading}", True, f"`{alert}`" in below.get(heading, ""))
    said = {it for text in below.values() for it in re.findall(r"`(Revcache\w+)`", text)}
    expect("alerts that BAD_DAYS names", set(names_of_alerts()), said)


def each_alert_comes_with_its_trouble(stand):
    expect("alerts that are tried", names_of_alerts(), list(TROUBLE))
    cases = [(alert, series) for alert, all_of_it in TROUBLE.items() for series in all_of_it]
    when = {"RevcacheFewHits": LATE}
    return played(stand, "trouble", [day(series, [asked(alert, True, when.get(alert, SOON))]) for alert, series in cases])


def played(stand, name, days):
    """Has promtool play the days."""
    text = json.dumps({"rule_files": [RULES], "evaluation_interval": "1m", "tests": days})
    promtool("test", "rules", stand.file(f"{name}.yml", text))
    return f"{sum(len(it['promql_expr_test']) for it in days)} looks at {len(days)} days"


def day(series, looks):
    """A calm day with these series in place of others."""
    expect("series of no calm day", [], [it for it in series if it not in CALM])
    inputs = [{"series": labelled(key), "values": series.get(key, value)} for key, value in CALM.items()]
    return {"name": str(list(series)), "interval": "1m", "input_series": inputs, "promql_expr_test": looks}


def labelled(series):
    both = 'instance="h",listen="127.0.0.1:8080"'
    return series.replace("{", f"{{{both},", 1) if "{" in series else f"{series}{{{both}}}"


def asked(alert, comes, when):
    """How many alerts of the name fire: none, or one."""
    samples = [{"labels": "{}", "value": 1}] if comes else []
    return {"expr": f'count(ALERTS{{alertname="{alert}",alertstate="firing"}})', "eval_time": when, "exp_samples": samples}


def expressions():
    """Of each panel of the dashboard: its title and what it asks for."""
    with open(DASHBOARD, encoding="utf-8") as it:
        page = json.load(it)
    found = [(panel["title"], one["expr"]) for panel in page["panels"] for one in panel.get("targets", [])]
    return found + [(it["name"], it["expr"]) for it in page["annotations"]["list"]]


@part
def dashboard(stand):
    need("promtool")
    yield "promtool_reads_each_expression", lambda: promtool_reads_each_expression(stand)
    yield "panels_stand_beside_one_another", panels_stand_beside_one_another


def promtool_reads_each_expression(stand):
    """As a rule that records, with a span and an instance in place of Grafana's words."""
    rules = []
    for i, (_, it) in enumerate(expressions()):
        for word, value in (("$__rate_interval", "5m"), ("$instance", ".*"), ("$listen", ".*")):
            it = it.replace(word, value)
        rules.append({"record": f"panel:{i}", "expr": it})
    promtool("check", "rules", stand.file("panels.yml", json.dumps({"groups": [{"name": "panels", "rules": rules}]})))
    expect("words of Grafana that are left", [], [it["expr"] for it in rules if "$" in it["expr"]])
    return f"{len(rules)} expressions"


def panels_stand_beside_one_another():
    with open(DASHBOARD, encoding="utf-8") as it:
        panels = json.load(it)["panels"]
    expect("numbers of panels, none twice", len(panels), len({it["id"] for it in panels}))
    places = [it["gridPos"] for it in panels]
    taken = [(x, y) for it in places for x in range(it["x"], it["x"] + it["w"]) for y in range(it["y"], it["y"] + it["h"])]
    expect("places that two panels have", len(taken), len(set(taken)))
    expect("the width of the page", True, max(x for x, _ in taken) < 24)
    return f"{len(panels)} panels"


@part
def figures(stand):
    """Alerts and dashboard name only figures that the program writes."""
    said = subprocess.run([stand.program, "serve", "--help"], capture_output=True, text=True, timeout=20).stdout
    if "--stats" not in said:
        raise Skipped("the program has no --stats")
    path = f"{stand.folder}/revcache.prom"
    origin = stand.origin(Origin({"/a": whole(200, KEPT, content=b"hello")}))
    proxy = stand.proxy(table_before(origin), options=["--stats", path])
    with urllib.request.urlopen(f"http://127.0.0.1:{proxy.port}/a", timeout=10) as answer:
        answer.read()
    wait_until(lambda: os.path.exists(path) and "revcache_requests_total" in read(path), "figures")
    yield "alerts_and_dashboard_name_what_is_written", lambda: alerts_and_dashboard_name_what_is_written(read(path))


def table_before(origin):
    with open(f"{DEPLOY}/table.toml", encoding="utf-8") as it:
        return it.read().replace("127.0.0.1:8081", origin.address)


def read(path):
    with open(path, encoding="utf-8") as it:
        return it.read()


def alerts_and_dashboard_name_what_is_written(written):
    has = set(re.findall(r"^# TYPE (\S+) ", written, re.M))
    asked_for = re.findall(r"expr: (?:>-\n)?((?:.*\n)+?) +(?:for|labels):", read(RULES)) + [text for _, text in expressions()]
    named = {it for text in asked_for for it in NAME.findall(text)}
    expect("figures that nobody writes", set(), {it.removesuffix("_bucket") if it.endswith("_seconds_bucket") else it for it in named} - has)
    return f"{len(named)} names"
