"""The tree of a page, for tests that ask what is shown."""

from html.parser import HTMLParser
from typing import Dict, Iterator, List, Optional, Union

EMPTY = ("meta", "br", "input", "link", "hr")


class Node:
    def __init__(self, tag: str, attributes: Dict[str, Optional[str]], parent: "Optional[Node]") -> None:
        self.tag, self.attributes, self.parent = tag, attributes, parent
        self.children: List[Node] = []
        self.content: List[Union[str, Node]] = []

    def __getitem__(self, name: str) -> Optional[str]:
        return self.attributes.get(name)

    @property
    def classes(self) -> List[str]:
        return (self["class"] or "").split()

    @property
    def text(self) -> str:
        return "".join(part if isinstance(part, str) else part.text for part in self.content)

    @property
    def title(self) -> str:
        return next(child.text for child in self.children if child.tag == "title")

    def all(self, tag: str, *classes: str) -> "List[Node]":
        """The elements below, of this tag and with all of these classes."""
        return [node for node in self.walk() if node.tag == tag and set(classes) <= set(node.classes)]

    def one(self, tag: str, *classes: str) -> "Node":
        (found,) = self.all(tag, *classes)
        return found

    def walk(self) -> "Iterator[Node]":
        for child in self.children:
            yield child
            yield from child.walk()


class _Builder(HTMLParser):
    def __init__(self) -> None:
        super().__init__()
        self.root = self.at = Node("", {}, None)

    def handle_starttag(self, tag, attributes):
        node = Node(tag, dict(attributes), self.at)
        self.at.children.append(node)
        self.at.content.append(node)
        if tag not in EMPTY:
            self.at = node

    def handle_endtag(self, tag):
        if tag != self.at.tag:
            raise AssertionError(f"</{tag}> closes <{self.at.tag}> at {self.getpos()}")
        self.at = self.at.parent

    def handle_data(self, data):
        self.at.content.append(data)


def parse(text: str) -> Node:
    """The tree of a page. Raises AssertionError where elements do not nest."""
    builder = _Builder()
    builder.feed(text)
    builder.close()
    if builder.at is not builder.root:
        raise AssertionError(f"<{builder.at.tag}> is not closed")
    return builder.root
