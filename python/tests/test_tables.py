"""Reading a trace."""
import pytest

from srm_lab import ScenarioError
from srm_lab.tables import Row, read_trace

TRACE = """time,member,cause,ref,result,lost,sent
0,0,join,-,in,0,-
0,0,draw,0/0/0,sent,0,0:0
10,0,draw,0/0/1,sent,0,0:1
12,2,data,0:1,fresh,1,-
14,2,ask,0/0/0,sent,0,2:0
15,1,request,2:0,plan,0,-
16,1,answer,0/0/0,sent,0,1:0
18,0,draw,-,skip,0,-
18,2,ask,0/0/0,sent,0,2:1
"""


def test_rows_are_read():
    rows = list(read_trace(TRACE.splitlines()))
    assert rows[3] == Row(12, 2, "data", "0:1", "fresh", 1, "-")
    assert len(rows) == 9


@pytest.mark.parametrize("text, told", [
    ("", "this is no trace"),
    ("link,data\n", "its first line is 'link,data'"),
    (TRACE + "19,1,ask\n", "line 11 is no line of a trace: '19,1,ask'"),
    (TRACE + "x,1,ask,0/0/0,sent,0,-\n", "line 11 is no line of a trace"),
])
def test_what_is_no_trace(text, told):
    with pytest.raises(ScenarioError, match=told):
        list(read_trace(text.splitlines()))
