#!/usr/bin/env python3
"""Lists sentences of texts that have too many words: `checks/sentences.py MOST FILE..`.

Of .rt and .antt files the comments are read: those on lines of their own. Code blocks, tables, quotations and headings
are not read. A piece of code between backquotes is one word. A line for each sentence that is too long: file, line,
number of words, and how it begins.
"""
import re
import sys


def prose(name, lines):
    """The lines of a text, and of a source file the comments, with an empty line for each line of code."""
    if not name.endswith(('.rt', '.antt')):
        return lines
    comments = (re.match(r'\s*(?://[/!]?|--)(.*)', line) for line in lines)
    return [comment[1] if comment else '' for comment in comments]


def paragraphs(lines):
    """Gives each paragraph or list item as its first line's number and its text."""
    begun, text, in_code = 0, [], False
    for number, line in enumerate([*lines, ''], 1):
        if line.lstrip().startswith('```'):
            in_code = not in_code
            line = ''
        bare = line.strip()
        ends = in_code or not bare or bare.startswith(('#', '|', '<', '>'))
        item = re.match(r'(?:[-*]|\d+\.)\s+', bare)
        if text and (ends or item):
            yield begun, ' '.join(text)
            text = []
        if not ends:
            begun = begun if text else number
            text.append(bare[item.end():] if item else bare)


def sentences(text):
    """Cuts a paragraph behind each full stop, question mark or exclamation mark that a new sentence follows."""
    text = re.sub(r'`[^`]*`', 'Code', text)
    text = re.sub(r'\[([^\]]*)\]\([^)]*\)', r'\1', text)
    return re.split(r'(?<=[.!?])["”)*]*\s+(?=["“(*]*[A-Z0-9])', text)


def words(sentence):
    return [word for word in sentence.split() if re.search(r'[A-Za-z0-9]', word)]


def main(arguments):
    most, status = int(arguments[0]), 0
    for name in arguments[1:]:
        with open(name, encoding='utf-8') as file:
            lines = prose(name, file.read().split('\n'))
        for number, text in paragraphs(lines):
            for sentence in sentences(text):
                count = len(words(sentence))
                if count > most:
                    print(f'{name}: {number}: {count} words: {sentence[:70]}')
                    status = 1
    return status


sys.exit(main(sys.argv[1:]))
