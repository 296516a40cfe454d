"""The examples of docs/API.md that stand in its table of refusals."""
import re

ROW = re.compile(r"^\| `([A-Z_]+)` \|.*\| (`.*`.*) \|$", re.M)
EXAMPLE = re.compile(r"`(\{.*?\}|/v1/\S+)`(?:: ([^;`]*))?(?=; `|$)")


def refused_examples(text):
    """Each example of the table: a line that is refused, the code of its refusal, and what the message names."""
    for code, examples in ROW.findall(text):
        for request, named in EXAMPLE.findall(examples):
            line = request + " {\"find\":{}}" if request.startswith("/v1/") else "/v1/ks/c " + request
            yield line, code, named


def is_refused_so(reply, code, named):
    return reply.endswith('"errorCode":"%s"}]}' % code) and named in reply
