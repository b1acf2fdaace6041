"""A recogniser of items by the grammar of docs/LANGUAGE.md, after Earley: which tokens may come
after some others.

It is a second judge of what the server says that was expected. It has none of the program's code,
and works in another way: it holds all ways to read the tokens so far at once, and reads off which
tokens go on with one of them. A token is a word or a mark as it is spelled, or one of NAME, INT,
FLOAT, TEXT, CHAR and CCODE. Levels are not counted."""

import re

# A rule with its forms; a form may be empty. The mark | is in quotes, since it parts forms.
GRAMMAR = r"""
<item>: <header> | <set> | } | CCODE | ; | <option> | <foreign> | <declaration> | <assign> |
    <monitor> | <sync> | <syncq> | <entry> | <exit> | <state> | <function> | <struct>
<header>: program NAME | program NAME ( <texts> )
<set>: ss NAME {
<texts>: TEXT | TEXT <texts>
<option>: option <sign> NAME ;
<sign>: + | -
<foreign>: foreign <names> ;
<names>: NAME | NAME , <names>
<declaration>: <type> <declarators> ;
<declarators>: <declarator> | <declarator> , <declarators>
<declarator>: <stars> NAME <bounds> | <stars> NAME <bounds> = <initialiser>
<stars>: | * <stars> | * const <stars>
<bounds>: | [ ] <bounds> | [ <expression> ] <bounds>
<initialiser>: <assignment> | { } | { <initialisers> } | { <initialisers> , }
<initialisers>: <initialiser> | <initialiser> , <initialisers>
<to>: | to
<assign>: assign NAME ; | assign NAME <to> <texts> ; | assign NAME [ INT ] <to> <texts> ; |
    assign NAME <to> { } ; | assign NAME <to> { <channels> } ; | assign NAME <to> { <channels> ,
    } ;
<channels>: <texts> | <texts> , <channels>
<element>: | [ INT ]
<monitor>: monitor NAME <element> ;
<sync>: sync NAME <element> <to> NAME ;
<syncq>: <queued> NAME <element> <flag> <length> ;
<queued>: syncq | syncQ
<flag>: | <to> NAME
<length>: | INT
<entry>: entry <block>
<exit>: exit <block>
<state>: state NAME { <members> }
<members>: | <member> <members>
<member>: <declaration> | <foreign> | <assign> | <monitor> | <sync> | <syncq> | <option> | ; |
    CCODE | <entry> | <exit> | <when>
<when>: when ( <condition> ) <block> state NAME | when ( <condition> ) <block> exit
<condition>: | <expression>
<function>: <type> <stars> NAME ( ) <body> | <type> <stars> NAME ( <parameters> ) <body>
<body>: <block> | ;
<parameters>: <parameter> | <parameter> , <parameters>
<parameter>: <type> <stars> <bounds> | <type> <stars> NAME <bounds>
<struct>: struct NAME { <fields> } ;
<fields>: | <declaration> <fields> | CCODE <fields>
<type>: <base> | const <base> | <base> const | const <base> const
<base>: void | <integer> | unsigned | unsigned <integer> | int8_t | uint8_t | int16_t | uint16_t
    | int32_t | uint32_t | float | double | string | evflag | <tag> NAME
<integer>: char | short | short int | int | long | long int
<tag>: enum | struct | union | typename
<block>: { <inside> }
<inside>: | <declaration> <inside> | <statement> <inside>
<statement>: <condition> ; | <block> | CCODE | if ( <expression> ) <statement> | if (
    <expression> ) <statement> else <statement> | while ( <expression> ) <statement> | for (
    <condition> ; <condition> ; <condition> ) <statement> | break ; | continue ; | return
    <condition> ; | state NAME ;
<expression>: <assignment> | <assignment> , <expression>
<assignment>: <conditional> | <prefix> <assigns> <assignment>
<assigns>: = | += | -= | *= | /= | %= | &= | |= | ^= | <<= | >>=
<conditional>: <binary> | <binary> ? <expression> : <conditional>
<binary>: <prefix> | <prefix> <between> <binary>
<between>: || | && | '|' | ^ | & | == | != | < | > | <= | >= | << | >> | + | - | * | / | %
<prefix>: <uncast> | ( <type> <stars> ) <prefix>
<uncast>: <postfix> | <before> <prefix> | sizeof <uncast>
<before>: + | - | ! | ~ | * | & | ++ | --
<postfix>: <primary> | <postfix> [ <expression> ] | <postfix> ( ) | <postfix> ( <arguments> ) |
    <postfix> . NAME | <postfix> -> NAME | <postfix> ++ | <postfix> --
<arguments>: <assignment> | <assignment> , <arguments>
<primary>: NAME | INT | FLOAT | CHAR | <texts> | ( <expression> ) | sizeof ( <type> <stars> )
"""


def rules_of(grammar):
    """What each name stands for: lists of names and tokens."""
    rules = {}
    for rule in re.split(r"\n(?=<)", grammar.strip()):
        name, _, forms = rule.partition(":")
        parts, form = [], []
        for word in forms.split():
            if word == "|":
                parts.append(tuple(form))
                form = []
            else:
                form.append("|" if word == "'|'" else word)
        rules[name] = parts + [tuple(form)]
    return rules


RULES = rules_of(GRAMMAR)
WORDS = {word for forms in RULES.values() for form in forms for word in form}
TOKENS = sorted(WORDS - set(RULES))
EMPTY = {name for name, forms in RULES.items() if () in forms}


class Reading:
    """All ways to read the tokens so far. A way is a form, how much of it is read, and where it began."""

    def __init__(self):
        self.sets = []
        self.complete = False
        self.close({(("<item>",), 0, 0, None)})

    def close(self, ways):
        here = len(self.sets)
        ways, todo, waiting = set(ways), list(ways), {}
        self.sets.append(waiting)
        self.complete = False
        while todo:
            form, read, begin, name = todo.pop()
            if read < len(form):
                after = form[read]
                new = []
                if after not in waiting:
                    waiting[after] = []
                    if after in RULES:
                        new = [(form, 0, here, after) for form in RULES[after]]
                waiting[after].append((form, read, begin, name))
                if after in EMPTY:
                    new.append((form, read + 1, begin, name))
            elif name is None:
                self.complete = True
                continue
            else:
                before = self.sets[begin].get(name, ())
                new = [(form, read + 1, since, of) for form, read, since, of in before]
            for way in new:
                if way not in ways:
                    ways.add(way)
                    todo.append(way)

    def next(self):
        """The tokens that may come."""
        return {token for token in self.sets[-1] if token not in RULES}

    def take(self, token):
        """Reads one more token, which may come."""
        ways = self.sets[-1][token]
        self.close({(form, read + 1, begin, name) for form, read, begin, name in ways})


def read(tokens):
    """The reading of these tokens, and how many of them were read: the next one may not come."""
    reading = Reading()
    for count, token in enumerate(tokens):
        if token not in reading.next():
            return reading, count
        reading.take(token)
    return reading, len(tokens)
