"""A page of the front's own where an origin fails, by the lines that are comments as they stand: visitors read it, and the log has the reason."""
import os

from deployed.fronts import FILES, Front
from deployed.stand import part, taken_in, wait_until
from deployed.strangers import FOR_OPERATORS, NEAR
from live.expect import expect
from live.origin import whole

PAGE = "<!doctype html><title>Soon</title><p>We are back soon."
LINES = {
    "nginx": ["proxy_intercept_errors", "error_page 502", "location = /502.html"],
    "haproxy": ["http-response return status 502"],
}


@part
def own_pages(stand):
    os.mkdir(f"{stand.folder}/pages")
    stand.file("pages/502.html", PAGE)
    for kind, lines in LINES.items():
        front = Front(stand, kind, taken_in(FILES[kind], *lines), records=False)
        yield f"visitors_read_the_page_{kind}", lambda front=front: visitors_read_the_page(front)
        both = Front(stand, kind, {**taken_in(FILES[kind], *lines, *FOR_OPERATORS[kind]), **NEAR}, records=False)
        yield f"strangers_read_the_page_and_nothing_else_{kind}", lambda both=both: strangers_read_the_page_and_nothing_else(both)


def visitors_read_the_page(front):
    """Where nobody listens at the origin's address; what the origin itself says of a page that isn't there goes through."""
    front.origin.answers["/gone"] = whole(404, content=b"not here")
    expect("an origin's 404", (404, b"not here"), (front.ask("/gone").status, front.ask("/gone").content))
    expect("a denial", (403, b"denied by line 1"), (front.ask("/admin").status, front.ask("/admin").content))
    front.stand.origins.remove(front.origin)
    front.origin.close()
    answer = front.ask("/new")
    expect("where the origin is away", (502, PAGE.encode()), (answer.status, answer.content))
    expect("its type", True, (answer.value("Content-Type") or "").startswith("text/html"))
    expect("the path of the page itself", True, front.ask("/502.html").status in (404, 502))
    wait_until(lambda: any("origin refused;fwd=uri-miss" in it for it in front.log()), "the reason in the log")


def strangers_read_the_page_and_nothing_else(front):
    """With the lines that keep the cache's words for operators beside it."""
    front.stand.origins.remove(front.origin)
    front.origin.close()
    answer = front.ask("/new", "--interface", "127.0.0.9")
    expect("where the origin is away", (502, PAGE.encode(), "none"), (answer.status, answer.content, answer.reason()))
