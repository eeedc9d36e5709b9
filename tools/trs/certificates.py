"""Certificate texts of versions 1 and 2 (docs/CERTIFICATE-FORMAT.md): what a text says, or the line that refuses it."""
from collections import namedtuple

from .items import TextFault, is_word, read_items
from .methods import read_method
from .names import Names
from .paths import Definitions
from .reading import Bad, check_length, number, word_in

MOST_OPEN = 1_040
GREATEST = 2**63 - 1

CLAIMS = {"terminating": "YES", "nonterminating": "NO", "confluent": "YES", "nonconfluent": "NO", "unique": "YES", "nonunique": "NO"}

Certificate = namedtuple("Certificate", "version claim steps")
# A step of a certificate: the node on which it stands, its method, and the names of its variables.
CertifiedStep = namedtuple("CertifiedStep", "node method variables")


class CertificateRefused(Exception):
    """The line that refuses a text before any step is checked, with the place that it names, if any."""

    def __init__(self, line, place=None):
        super().__init__(line, place)
        self.line, self.place = line, place


def read_certificate(system, data):
    try:
        items = read_items(data, MOST_OPEN)
        headline, version, claim = read_head(items, len(data))
        if version not in (1, 2):
            raise CertificateRefused(f"REJECTED version {version}")
        word_in(claim, CLAIMS)
        certificate = read_body(system, version, claim.text, items[2:])
    except (TextFault, Bad) as fault:
        raise CertificateRefused(f"REJECTED text {fault.place}", fault.place) from None
    if CLAIMS[certificate.claim] != headline:
        raise CertificateRefused("REJECTED headline")
    return certificate


def read_head(items, length):
    """The headline, the version, and the item of the claim."""
    if not items:
        raise Bad(length)
    if not is_word(items[0]) or items[0].text not in ("YES", "NO"):
        raise Bad(items[0].place)
    if len(items) < 2:
        raise Bad(length)
    head = items[1]
    if is_word(head) or len(head.members) != 3 or not all(is_word(member) for member in head.members):
        raise Bad(head.place)
    word, version, claim = head.members
    if word.text != "certificate":
        raise Bad(head.place)
    try:
        return items[0].text, number(version, GREATEST), claim
    except Bad:
        raise Bad(head.place) from None


def read_body(system, version, claim, items):
    """The steps of a certificate, and before them, in version 2, its definitions."""
    names, definitions, steps = Names(system), Definitions(version), []
    for item in items:
        if is_word(item) or not item.members:
            raise Bad(item.place)
        is_definition = version == 2 and not steps and is_word(item.members[0]) and item.members[0].text == "define"
        if is_definition:
            definitions.read(item)
        else:
            steps.append(read_step(names, definitions, item))
    return Certificate(version, claim, steps)


def read_step(names, definitions, item):
    check_length(item, 3)
    word, node, method = item.members[:3]
    word_in(word, ("step",))
    node_number = number(node, GREATEST)
    names.begin_step()
    found = read_method(names, definitions, method)
    if len(item.members) > 3:
        raise Bad(item.members[3].place)
    return CertifiedStep(node_number, found, names.variables())
