#!/usr/bin/env python3
"""Lists each public call that can answer that memory was refused, and the clause that says when it can't. It fails where one has none.

A call can answer so where its result names AllocError, a fault, an error with a variant for memory, or a run that has one. Its clause has a name that says so
(NAMES), or words that do (WORDS). The readers of a trait have the trait's clause, over what each says by takes_memory. A copy that clone
makes follows the contract of the standard library, which says nothing of memory. What asks for memory whatever it is passed is in ALWAYS, with
its reason. The last line is 'N passed, N failed'."""
import re
import sys

from lines import TOP, summary

# what clauses of these names say
NAMES = {
    "no_memory": "memory is no answer there",
    "memory": "memory is an answer there alone",
    "asked": "memory is an answer only where something is kept",
    "early": "what is refused before the first allocation is never refused for memory",
}
# what a clause says by these words
WORDS = {
    r"\bAnswers\b": "memory is an answer only where the reader takes some",
    r"\bIs(Server|Client)Fault\b": "a fault is that of a grammar, which is never that of memory",
    r"\bFaults false\b|\bRefuses(Next|Param)\b|\bGives(One|Param|Bound|AsSent|BoundAsSent)\b|\b(ChecksRow|PassesOne)\b": "a fault is the grammar's, which is never that of memory",
    r"\b(AttributesThere|AttributesAt|PassedTo)\b": "attributes are read without memory",
    r"\bNext(Change|ChangeRef|Variable|Pair|Sid|Interval|Attribute|AttributeAsSent)\b": "an entry is read without memory, or as its grammar has it",
    r"\bGivesText\b|BorrowsUtf8\b": "what is UTF-8 is borrowed",
    r"\bAdds(Row|Copy|Params)?\b": "memory is an answer only where the row would be taken",
    r"\bStoresRow\b": "memory is an answer only where the block is too small",
    r"\bBuilds\b": "a request is built without memory",
    r"\b(Cells)?RunGives\b": "memory is an answer only where a request is due, or the next row would be taken",
    r"\bMakesRequest\b": "memory is an answer only for rows of one length",
    r"\bRefuses self\b": "memory is an answer only where a name is asked for twice, or a list of values is made",
    r"\bRefusesValue\b": "memory is an answer only for a string that has a byte",
    r"\bReadsRef\b": "memory is no answer there",
    r"\(why ≡ refusal\.UnexpectedPacket\) ⊎ \(why ≡ refusal\.Full\)": "memory is none of the errors",
    r"→ IsOk result": "memory is no answer there",
}
# what asks for a block of its own, or hides in its model whether it has one
ALWAYS = {
    "HandshakePacket::nonce": "its 20 bytes are joined from two places",
    "ComQuery::with_attributes": "its bitmap is a block of its own",
    "ComStmtExecuteRequestBuilder::build": "its bitmap is a block of its own",
    "ComStmtExecuteRequestBuilder::build_ref": "its bitmap is a block of its own",
    "ComStmtExecuteOptionsBuilder::build": "its bitmap is a block of its own",
    "NullBitmap::new": "its bytes are a block of its own",
    "NullBitmap::read": "its bytes are a block of its own",
    "ComStmtSendLongData::into_owned": "whether it owns its content does not show in a clause",
    "Tag::into_owned": "whether it owns its text does not show in a clause",
    "ComBinlogDumpGtid::with_sid": "the capacity of its list does not show in a clause",
    "Sid::with_interval": "the capacity of its list does not show in a clause",
    "Seq::push": "the capacity of its list does not show in a clause",
    "Row::columns": "a share of a list is one more count, and shares follow the contract of the standard library",
    "Row::get": "the value is copied as the type that is asked for copies it",
    "Row::get_opt": "the value is copied as the type that is asked for copies it",
}
FUNCTION = re.compile(r"( *)pub (?:const )?fn (\w+)|( {4})(?:final )?fn (\w+)")
OWNER = re.compile(r"(?:pub )?(?:unsafe )?(impl|trait)(?:<[^{]*?>)? (?:.* for )?(\w+)")


def libraries():
    return sorted(it.parent.parent for it in (TOP / "crates").glob("mysql_*/src/lib.rt") if it.parent.parent.name not in ("mysql_packets", "mysql_packets_c", "mysql_program", "mysql_show", "mysql_recorder"))


def refusals():
    """The types of a refusal that memory is one of."""
    found = {"AllocError", "Fault", "FaultOf"}
    # (FaultKind is what a fault is of, and no answer of a call)
    sources = [it.read_text() for library in libraries() for it in (library / "src").rglob("*.rt")]
    enums = [it for source in sources for it in re.findall(r"^pub enum (\w+)(?:<[^>]*>)? \{(.*?)^\}", source, re.M | re.S)]
    # (what a whole run gives has its refusal in a field)
    runs = [it for source in sources for it in re.findall(r"^pub struct (\w+)(?:<[^>]*>)? \{(.*?)^\}", source, re.M | re.S) if "    pub refusal: " in it[1]]
    # (an error may be made of another)
    while more := {name for name, body in enums if re.search(rf"^ {{4}}Memory\b|\b(?:{'|'.join(found)})\b", body, re.M)} - found:
        found |= more
    found |= {name for name, body in runs if found & set(re.findall(r"\w+", body))}
    return found - {"FaultKind"}


def signatures(source):
    """The public functions of a file, and those of its public traits: the owner, the name, the result, and the clauses with their names."""
    owner, public, lines = None, False, source.splitlines()
    for number, line in enumerate(lines):
        if head := OWNER.match(line):
            owner, public = head[2], line.startswith("pub trait")
        elif line.startswith("}"):
            owner, public = None, False
        found = FUNCTION.match(line)
        if not found or found[4] and not public:
            continue
        head = []
        for more in lines[number:]:
            head.append(more)
            if re.match(r" *\{$", more) or more.endswith((";", " {")) and not more.lstrip().startswith(("ensures", "requires")):
                break
        text = "\n".join(head)
        result = re.search(r"->\s*(.*?)(?:\n *(?:requires|ensures|where|\{)|;|\{\s*$)", text, re.S)
        clauses = re.findall(r"ensures(?:\*)? ?(\w*) ?\{(.*?)\}(?=\n|;|$)", text, re.S)
        yield owner, found[2] or found[4], result[1] if result else "", clauses


def clause_of(clauses):
    """The name of the clause that says when memory is no answer, and what it says."""
    for name, _ in clauses:
        if name in NAMES:
            return name, NAMES[name]
    for name, text in clauses:
        for words, meaning in WORDS.items():
            if re.search(words, text):
                return name or "ensures", meaning
    return None


def answers(exported):
    """Each public call that can answer for memory: its library, its name, and its clause or none."""
    kinds = refusals()
    for library in libraries():
        given = exported(library)
        for file in sorted((library / "src").rglob("*.rt")):
            if "laws" in file.relative_to(library).as_posix():
                continue
            for owner, name, result, clauses in signatures(file.read_text()):
                if (owner or name) in given and kinds & set(re.findall(r"\w+", result)):
                    call = f"{owner}::{name}" if owner else name
                    always = ("always", ALWAYS[call]) if call in ALWAYS else None
                    yield library.name, call, clause_of(clauses) or always


def calls_without_clauses(exported):
    return [f"{library}: {call} can answer for memory, and no clause says when it can't" for library, call, clause in answers(exported) if not clause]


def main():
    from surface import exported

    listed = list(answers(exported))
    for library, call, clause in listed:
        print(f"{library}: {call}: {f'{clause[0]}: {clause[1]}' if clause else 'NO CLAUSE'}")
    failures = calls_without_clauses(exported)
    return summary("calls that can answer for memory", len(listed) - len(failures), failures, 100)


if __name__ == "__main__":
    sys.exit(main())
