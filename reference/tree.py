"""The records of a sheet as a tree: bodies of works, loops and choices."""

from dataclasses import dataclass
from typing import Union

from pumdalin.records import Choice, End, Loop, NextArm, Record, Work


@dataclass(frozen=True)
class LoopNode:
    """A loop and its body; `position` counts records from 0."""

    position: int
    loop: Loop
    body: "Body"


@dataclass(frozen=True)
class ChoiceNode:
    position: int
    arms: tuple["Body", ...]

    def holds_loop(self) -> bool:
        """Whether it has a loop in an arm, directly or deeper."""
        return any(loops_in(arm) for arm in self.arms)


Body = tuple[Union[Work, LoopNode, ChoiceNode], ...]


def tree(records: list[Record]) -> Body:
    """The tree of records that were read without a refusal."""
    body, position = body_from(records, 0)
    assert position == len(records)
    return body


def body_from(records: list[Record], position: int) -> tuple[Body, int]:
    """A body and the position of the record that it stops at."""
    nodes: list[Union[Work, LoopNode, ChoiceNode]] = []
    while position < len(records):
        record = records[position]
        if isinstance(record, (End, NextArm)):
            break
        if isinstance(record, Work):
            nodes.append(record)
            position += 1
        elif isinstance(record, Loop):
            inner, end = body_from(records, position + 1)
            nodes.append(LoopNode(position, record, inner))
            position = end + 1
        else:
            choice, end = choice_from(records, position)
            nodes.append(choice)
            position = end + 1
    return tuple(nodes), position


def choice_from(records: list[Record], position: int) -> tuple[ChoiceNode, int]:
    """The choice at a position, and the position of its end."""
    assert isinstance(records[position], Choice)
    start = position
    arms: list[Body] = []
    while True:
        arm, position = body_from(records, position + 1)
        arms.append(arm)
        if isinstance(records[position], End):
            return ChoiceNode(start, tuple(arms)), position


def loops_directly_in(body: Body) -> list[LoopNode]:
    """The loops of a body that no other loop of it encloses, in sheet order."""
    found: list[LoopNode] = []
    for node in body:
        if isinstance(node, LoopNode):
            found.append(node)
        elif isinstance(node, ChoiceNode):
            for arm in node.arms:
                found += loops_directly_in(arm)
    return found


def loops_in(body: Body) -> list[LoopNode]:
    """All loops of a body, at any depth, in sheet order."""
    found: list[LoopNode] = []
    for loop in loops_directly_in(body):
        found.append(loop)
        found += loops_in(loop.body)
    return found


def choices_directly_in(body: Body) -> list[ChoiceNode]:
    """The choices of a body that stand in no loop and no arm of it."""
    return [node for node in body if isinstance(node, ChoiceNode)]


def choices_in(body: Body) -> list[ChoiceNode]:
    """All choices of a body, at any depth, in sheet order."""
    found: list[ChoiceNode] = []
    for node in body:
        if isinstance(node, LoopNode):
            found += choices_in(node.body)
        elif isinstance(node, ChoiceNode):
            found.append(node)
            for arm in node.arms:
                found += choices_in(arm)
    return found


def height(loop: LoopNode) -> int:
    """The greatest depth of loops nested inside a loop; 0 if none."""
    return max((1 + height(inner) for inner in loops_directly_in(loop.body)), default=0)
