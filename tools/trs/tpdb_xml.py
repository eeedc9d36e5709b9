"""TPDB's XML. A document type, and so every entity, is refused before anything is made of the text."""
import xml.etree.ElementTree
from xml.parsers import expat

from .foreign import Application, NotRead, System, Variable, check_depth

REFUSED = {
    "relrules": "it is relative: <relrules>", "conditions": "it is conditional: <conditions>",
    "conditiontype": "it is conditional: <conditiontype>", "replacementmap": "it is context-sensitive: <replacementmap>",
    "theory": "it is equational: <theory>", "type": "it is sorted: <type>", "equations": "it is equational: <equations>",
    "higherOrderSignature": "it is of higher order: <higherOrderSignature>", "lambda": "it is of higher order: <lambda>",
    "application": "it is of higher order: <application>", "startterm": "it asks of some start terms alone: <startterm>",
}


def read_xml(data):
    refuse_document_type(data)
    root = parsed(data)
    if root.tag != "problem":
        raise NotRead(f"it is no problem of TPDB: <{root.tag}>")
    for element in root.iter():
        if element.tag in REFUSED and not (element.tag == "relrules" and len(element) == 0):
            raise NotRead(REFUSED[element.tag])
    strategy = (root.findtext("strategy") or "FULL").strip()
    if strategy != "FULL":
        raise NotRead(f"it asks of {strategy.lower()} steps alone: <strategy>")
    system = System()
    for symbol in root.iterfind("trs/signature/funcsym"):
        system.symbol(name_in(symbol), arity_in(symbol))
    rules = root.find("trs/rules")
    if rules is None:
        raise NotRead("it has no <rules>")
    for rule in rules.iterfind("rule"):
        system.rule(side(rule, "lhs", system), side(rule, "rhs", system))
    return system


def parsed(data):
    try:
        return xml.etree.ElementTree.fromstring(data)
    except (xml.etree.ElementTree.ParseError, ValueError) as fault:
        raise NotRead(f"it is no XML: {fault}") from None


def refuse_document_type(data):
    def refuse(*words):
        raise NotRead("it has a document type, and entities are not read")
    parser = expat.ParserCreate()
    parser.StartDoctypeDeclHandler = refuse
    parser.EntityDeclHandler = refuse
    try:
        parser.Parse(data, True)
    except (expat.ExpatError, ValueError) as fault:
        raise NotRead(f"it is no XML: {fault}") from None


def name_in(element):
    name = (element.findtext("name") or "").strip()
    if not name:
        raise NotRead(f"a <{element.tag}> has no name")
    return name


def arity_in(element):
    text = (element.findtext("arity") or "").strip()
    if not text.isdecimal() or len(text) > 4:
        raise NotRead(f"the arity of {name_in(element)} is no number that is read: {text[:20]}")
    return int(text)


def side(rule, word, system):
    """The one term of a side."""
    found = rule.find(word)
    if found is None or len(found) != 1:
        raise NotRead(f"a rule has no <{word}> with one term")
    return term(found[0], system, 1)


def term(element, system, depth):
    check_depth(depth)
    if element.tag == "var":
        return Variable((element.text or "").strip())
    if element.tag != "funapp":
        raise NotRead(f"a term is expected, but <{element.tag}> is there")
    arguments = [child for child in element if child.tag == "arg"]
    if len(arguments) + 1 != len(element) or any(len(argument) != 1 for argument in arguments):
        raise NotRead("a <funapp> has something beside its name and its arguments")
    parts = tuple(term(argument[0], system, depth + 1) for argument in arguments)
    system.symbol(name_in(element), len(parts))
    return Application(name_in(element), parts)
