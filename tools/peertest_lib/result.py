"""What came of a case."""


class Result(dict):
    """id, title, bep, section, text, level, result, said, seconds, and the streams."""

    sent = got = b""
    begin = end = 0.0


def plain_result(case, result, said, seconds=0.0):
    return Result(id=case.id, title=case.title, bep=case.rule.bep, section=case.rule.section, text=case.rule.text, level=case.level,
                  result=result, said=said, seconds=round(seconds, 3), state=result)
