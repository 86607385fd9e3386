"""The verdicts of a suite as JUnit XML: a test suite for each file and a test case for each expectation."""
import datetime
import re
import socket
from xml.etree import ElementTree

# (characters that XML 1.0 has not)
UNFIT = re.compile("[^\t\n\r\x20-\ud7ff\ue000-\ufffd\U00010000-\U0010ffff]")


def junit_of(results):
    """The XML of the results of files, as a text."""
    top = ElementTree.Element("testsuites")
    began = datetime.datetime.now().replace(microsecond=0).isoformat()
    for number, result in enumerate(results):
        top.append(_suite(number, result, began))
    ElementTree.indent(top)
    return '<?xml version="1.0" encoding="UTF-8"?>\n' + ElementTree.tostring(top, "unicode") + "\n"


def _suite(number, result, began):
    failures = sum(not it.is_met for it in result.verdicts)
    package, _, name = _fit(result.file).rpartition("/")
    suite = ElementTree.Element("testsuite", {
        "id": str(number), "package": package or ".", "name": name, "timestamp": began, "hostname": socket.gethostname() or "localhost",
        "tests": str(len(result.verdicts) + bool(result.wrong)), "failures": str(failures),
        "errors": str(int(bool(result.wrong))), "skipped": "0", "time": f"{result.seconds:.3f}"})
    ElementTree.SubElement(suite, "properties")
    if result.wrong:
        case = _case(suite, result.file, "the file is read and replayed")
        _text(case, "error", result.wrong.split("\n")[0], "wrong file", result.wrong)
    for one in result.verdicts:
        case = _case(suite, result.file, f"{one.place[0]}:{one.place[1]}: {one.text}")
        if not one.is_met:
            _text(case, "failure", one.lines[0] if one.lines else "not met", "not met", "\n".join(one.lines))
    ElementTree.SubElement(suite, "system-out")
    ElementTree.SubElement(suite, "system-err")
    return suite


def _case(suite, file, name):
    return ElementTree.SubElement(suite, "testcase", {"classname": _fit(file), "name": _fit(name), "time": "0"})


def _text(case, kind, message, of_type, text):
    ElementTree.SubElement(case, kind, {"message": _fit(message), "type": of_type}).text = _fit(text)


def _fit(text):
    """A text without what XML has no characters for."""
    return UNFIT.sub("?", text)
