"""OPTIONS, which no line of a table may name: an API that answers it itself is asked, by the lines of the fronts that are comments as they stand."""
from deployed.fronts import FILES, Front, expect_from, value_of
from deployed.stand import need, part, taken_in
from deployed.strangers import CLAIMS, headers
from live.expect import expect
from live.origin import whole
from live.scenario import KEPT

PATH = "/answers-options"
LINES = {
    "nginx": ["location ~ ^/answers-options"],
    "haproxy": ["acl answers_options path -m reg ^/answers", "use_backend origin_of_options", "backend origin_of_options"],
}
# What a browser asks before a request that needs leave (the Fetch standard, "CORS-preflight fetch"), and what the API says to it.
ASKED = ["Origin: https://page.example", "Access-Control-Request-Method: PATCH", "Access-Control-Request-Headers: x-token"]
ALLOWED = ["Access-Control-Allow-Origin: https://page.example", "Access-Control-Allow-Methods: PATCH", "Access-Control-Allow-Headers: x-token"]


@part
def preflights_of_an_api(stand):
    for kind, lines in LINES.items():
        need(kind, "curl")
        front = Front(stand, kind, taken_in(FILES[kind], *lines))
        front.origin.answers.update({f"{PATH}/a": by_method, PATH: by_method})
        for it in (the_api_answers, all_else_goes_to_the_cache, no_other_path_is_passed_on, a_stranger_claims_no_field):
            yield f"{it.__name__}_{kind}", lambda it=it, front=front: it(front)


def by_method(fetch):
    # (this origin answers once on a connection)
    answers = {"OPTIONS": whole(204, *ALLOWED, "Connection: close"), "PATCH": whole(200, ALLOWED[0], content=b"changed")}
    answers.get(fetch.method, whole(200, KEPT, ALLOWED[0], "Vary: Origin", content=b"hello"))(fetch)


def the_api_answers(front):
    """A preflight comes to the API with what the browser asks, and goes back with what the API allows; no cache says a word."""
    for version in ("--http1.1", "--http2"):
        answer = front.ask(f"{PATH}/a", version, "--request", "OPTIONS", *headers(ASKED))
        expect(f"status and reason by {version}", (204, "none"), (answer.status, answer.reason()))
        expect("what is allowed", ALLOWED, [f"{it}: {answer.value(it)}" for it in names_of(ALLOWED)])
        fetch = front.fetches(f"{PATH}/a")[-1]
        expect("what the API was asked", ("OPTIONS", ASKED), (fetch.method, [f"{it}: {value_of(fetch, it)}" for it in names_of(ASKED)]))
    # (without a preflight, as WebDAV does)
    expect("status of OPTIONS alone", 204, front.ask(f"{PATH}/a", "--request", "OPTIONS").status)


def names_of(lines):
    return [it.partition(":")[0] for it in lines]


def all_else_goes_to_the_cache(front):
    for reason in ("edge;fwd=uri-miss;ttl=;stored", "edge;hit;ttl="):
        answer = expect_from(front.ask(f"{PATH}/a", "--header", ASKED[0]), 200, reason)
        expect("what is allowed", ALLOWED[0], f"Access-Control-Allow-Origin: {answer.value('Access-Control-Allow-Origin')}")
    expect_from(front.ask(f"{PATH}/a", "--request", "PATCH", "--data", "x", "--header", ASKED[0]), 200, "edge;fwd=method")


def no_other_path_is_passed_on(front):
    """Elsewhere the front answers; and what begins so and leads elsewhere comes to no origin: it would pass the table's denials."""
    before = len(front.origin.fetches)
    for it in ("/a", f"{PATH}x", "/admin", f"/x{PATH}/a"):
        expect(f"status for {it}", 204, front.ask(it, "--request", "OPTIONS", *headers(ASKED)).status)
    for it in ("/../admin", "/./../admin", "/x/../../admin", "/%2e%2e/admin", "/.%2E/admin", "/%2e./admin", "/..", "/%2E%2e"):
        front.ask(f"{PATH}{it}", "--request", "OPTIONS")
    for it in ("//../admin", "/..%2Fadmin", "/..;/admin"):
        expect(f"status for {PATH}{it}", 400, front.ask(f"{PATH}{it}", "--request", "OPTIONS").status)
    expect("requests at the origin", before, len(front.origin.fetches))


def a_stranger_claims_no_field(front):
    front.ask(f"{PATH}/a", "--request", "OPTIONS", *headers(["Connection: close, X-Forwarded-For", *CLAIMS]))
    fetch = front.fetches(f"{PATH}/a")[-1]
    names = {name.lower() for name, _ in fetch.fields}
    expect("claims at the origin", [], [it for it in CLAIMS if it.partition(":")[0].lower() in names])
    expect("the front's field at the origin", "127.0.0.1", value_of(fetch, "X-Forwarded-For"))
