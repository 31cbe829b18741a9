"""Three sessions with adaptive timers that were worked by hand, for fuzz_tests.py: scenarios, traces and what timers go by."""
from fuzz_format import Table

# A chain of three members, 20 ticks a link. The second link loses operations 0 and 2 of the sender, and so member 2 learns of
# each loss a tick after it. No duplicates are heard, and each request takes a round trip: C1 falls by 50 whenever member 2 asks.
ONE_LOSER: Table = {
    "version": 3, "until": 2000, "c1": 2000, "c1_least": 500, "c2": 0, "d1": 1000, "d2": 0, "backoff": 3,
    "topology": "chain", "size": 3, "delay": 20,
    "member": [
        {"node": 0, "role": "sender", "stream": 1}, {"node": 1, "role": "receiver", "stream": 2},
        {"node": 2, "role": "receiver", "stream": 3},
    ],
    "draw": [
        {"member": 0, "page": 0, "ink": 0, "at": 0}, {"member": 0, "page": 0, "ink": 1, "at": 1},
        {"member": 0, "page": 0, "ink": 2, "at": 1000}, {"member": 0, "page": 0, "ink": 3, "at": 1001},
    ],
    "outage": [
        {"link": 1, "from": 20, "to": 21}, {"link": 1, "from": 1020, "to": 1021},
    ],
}
ONE_LOSER_TRACE = b"""\
time,member,cause,ref,result,lost,sent
0,0,join,-,in,0,-
0,0,draw,0/0/0,sent,0,0:0
0,1,join,-,in,0,-
0,2,join,-,in,0,-
1,0,draw,0/0/1,sent,0,0:1
20,1,data,0:0,fresh,0,-
21,1,data,0:1,fresh,0,-
41,2,data,0:1,fresh,1,-
121,2,ask,0/0/0,sent,0,2:0
141,1,request,2:0,plan,0,-
161,0,request,2:0,plan,0,-
161,1,answer,0/0/0,sent,0,1:0
181,0,repair,1:0,again,0,-
181,2,repair,1:0,fixed,0,-
1000,0,draw,0/0/2,sent,0,0:2
1001,0,draw,0/0/3,sent,0,0:3
1020,1,data,0:2,fresh,0,-
1021,1,data,0:3,fresh,0,-
1041,2,data,0:3,fresh,1,-
1119,2,ask,0/0/2,sent,0,2:1
1139,1,request,2:1,plan,0,-
1159,0,request,2:1,plan,0,-
1159,1,answer,0/0/2,sent,0,1:1
1179,0,repair,1:1,again,0,-
1179,2,repair,1:1,fixed,0,-
"""
ONE_LOSER_TIMERS = b"""\
time,member,cause,ref,c1,c2,d1,d2,ave_dup_req,ave_req_delay,ave_dup_rep,ave_rep_delay
0,0,join,-,2000,0,1000,0,-,-,-,-
0,1,join,-,2000,0,1000,0,-,-,-,-
0,2,join,-,2000,0,1000,0,-,-,-,-
121,2,ask,0/0/0,1950,0,1000,0,-,1000,-,-
1119,2,ask,0/0/2,1900,0,1000,0,0,993,-,-
"""

# A star, in which the loser has the sender and another member equally near: both answer its request at once, and hear each
# other's repair while the name rests, which is a duplicate. The farthest member hears two repairs, and the first ends its own
# timer.
TWO_REPAIRERS: Table = {
    "version": 3, "until": 2000, "c1": 1500, "c2": 0, "d1": 1500, "d1_least": 500, "d1_most": 2000, "d2": 0,
    "backoff": 3, "nodes": 5,
    "link": [
        {"a": 0, "b": 1, "delay": 20}, {"a": 0, "b": 2, "delay": 20}, {"a": 0, "b": 3, "delay": 60},
        {"a": 0, "b": 4, "delay": 20},
    ],
    "member": [
        {"node": 1, "role": "sender", "stream": 1}, {"node": 2, "role": "receiver", "stream": 2},
        {"node": 3, "role": "receiver", "stream": 3}, {"node": 4, "role": "receiver", "stream": 4},
    ],
    "draw": [
        {"member": 0, "page": 0, "ink": 0, "at": 0}, {"member": 0, "page": 0, "ink": 1, "at": 1},
        {"member": 0, "page": 0, "ink": 2, "at": 1000}, {"member": 0, "page": 0, "ink": 3, "at": 1001},
    ],
    "outage": [
        {"link": 3, "from": 20, "to": 21}, {"link": 3, "from": 1020, "to": 1021},
    ],
}
TWO_REPAIRERS_TRACE = b"""\
time,member,cause,ref,result,lost,sent
0,0,join,-,in,0,-
0,0,draw,0/0/0,sent,0,0:0
0,1,join,-,in,0,-
0,2,join,-,in,0,-
0,3,join,-,in,0,-
1,0,draw,0/0/1,sent,0,0:1
40,1,data,0:0,fresh,0,-
41,1,data,0:1,fresh,0,-
41,3,data,0:1,fresh,1,-
80,2,data,0:0,fresh,0,-
81,2,data,0:1,fresh,0,-
101,3,ask,0/0/0,sent,0,3:0
141,0,request,3:0,plan,0,-
141,1,request,3:0,plan,0,-
181,2,request,3:0,plan,0,-
201,0,answer,0/0/0,sent,0,0:2
201,1,answer,0/0/0,sent,0,1:0
241,0,repair,1:0,again,0,-
241,1,repair,0:2,again,0,-
241,3,repair,0:2,fixed,0,-
241,3,repair,1:0,again,0,-
281,2,repair,0:2,again,0,-
281,2,repair,1:0,again,0,-
1000,0,draw,0/0/2,sent,0,0:3
1001,0,draw,0/0/3,sent,0,0:4
1040,1,data,0:3,fresh,0,-
1041,1,data,0:4,fresh,0,-
1041,3,data,0:4,fresh,1,-
1080,2,data,0:3,fresh,0,-
1081,2,data,0:4,fresh,0,-
1101,3,ask,0/0/2,sent,0,3:1
1141,0,request,3:1,plan,0,-
1141,1,request,3:1,plan,0,-
1181,2,request,3:1,plan,0,-
1199,0,answer,0/0/2,sent,0,0:5
1199,1,answer,0/0/2,sent,0,1:1
1239,0,repair,1:1,again,0,-
1239,1,repair,0:5,again,0,-
1239,3,repair,0:5,fixed,0,-
1239,3,repair,1:1,again,0,-
1279,2,repair,0:5,again,0,-
1279,2,repair,1:1,again,0,-
"""
TWO_REPAIRERS_TIMERS = b"""\
time,member,cause,ref,c1,c2,d1,d2,ave_dup_req,ave_req_delay,ave_dup_rep,ave_rep_delay
0,0,join,-,1500,0,1500,0,-,-,-,-
0,1,join,-,1500,0,1500,0,-,-,-,-
0,2,join,-,1500,0,1500,0,-,-,-,-
0,3,join,-,1500,0,1500,0,-,-,-,-
201,0,answer,0/0/0,1500,0,1450,0,-,-,-,750
201,1,answer,0/0/0,1500,0,1450,0,-,-,-,750
1181,2,request,3:1,1500,0,1600,0,-,-,1000,625
1199,0,answer,0/0/2,1500,0,1400,0,-,-,1000,743
1199,1,answer,0/0/2,1500,0,1400,0,-,-,1000,743
"""

# Two losers that are equally far from the sender ask together, and each hears the other's request before its ignore time: a
# duplicate. A third one, farther away, backs off at the first request, and hears the second one as a duplicate.
TWO_REQUESTERS: Table = {
    "version": 3, "until": 2000, "c1": 1000, "c1_least": 500, "c1_most": 2000, "c2": 0, "d1": 500, "d2": 0,
    "backoff": 3, "nodes": 5,
    "link": [
        {"a": 0, "b": 1, "delay": 20}, {"a": 1, "b": 2, "delay": 20}, {"a": 1, "b": 3, "delay": 20},
        {"a": 1, "b": 4, "delay": 60},
    ],
    "member": [
        {"node": 0, "role": "sender", "stream": 1}, {"node": 2, "role": "receiver", "stream": 2},
        {"node": 3, "role": "receiver", "stream": 3}, {"node": 4, "role": "receiver", "stream": 4},
    ],
    "draw": [
        {"member": 0, "page": 0, "ink": 0, "at": 0}, {"member": 0, "page": 0, "ink": 1, "at": 1},
        {"member": 0, "page": 0, "ink": 2, "at": 1000}, {"member": 0, "page": 0, "ink": 3, "at": 1001},
    ],
    "outage": [
        {"link": 0, "from": 0, "to": 1}, {"link": 0, "from": 1000, "to": 1001},
    ],
}
TWO_REQUESTERS_TRACE = b"""\
time,member,cause,ref,result,lost,sent
0,0,join,-,in,0,-
0,0,draw,0/0/0,sent,0,0:0
0,1,join,-,in,0,-
0,2,join,-,in,0,-
0,3,join,-,in,0,-
1,0,draw,0/0/1,sent,0,0:1
41,1,data,0:1,fresh,1,-
41,2,data,0:1,fresh,1,-
81,1,ask,0/0/0,sent,0,1:0
81,2,ask,0/0/0,sent,0,2:0
81,3,data,0:1,fresh,1,-
121,0,request,1:0,plan,0,-
121,0,request,2:0,busy,0,-
121,1,request,2:0,hold,0,-
121,2,request,1:0,hold,0,-
141,0,answer,0/0/0,sent,0,0:2
161,3,request,1:0,back,0,-
161,3,request,2:0,hold,0,-
181,1,repair,0:2,fixed,0,-
181,2,repair,0:2,fixed,0,-
221,3,repair,0:2,fixed,0,-
1000,0,draw,0/0/2,sent,0,0:3
1001,0,draw,0/0/3,sent,0,0:4
1041,1,data,0:4,fresh,1,-
1041,2,data,0:4,fresh,1,-
1079,1,ask,0/0/2,sent,0,1:1
1079,2,ask,0/0/2,sent,0,2:1
1081,3,data,0:4,fresh,1,-
1119,0,request,1:1,plan,0,-
1119,0,request,2:1,busy,0,-
1119,1,request,2:1,hold,0,-
1119,2,request,1:1,hold,0,-
1139,0,answer,0/0/2,sent,0,0:5
1159,3,request,1:1,back,0,-
1159,3,request,2:1,hold,0,-
1179,1,repair,0:5,fixed,0,-
1179,2,repair,0:5,fixed,0,-
1219,3,repair,0:5,fixed,0,-
"""
TWO_REQUESTERS_TIMERS = b"""\
time,member,cause,ref,c1,c2,d1,d2,ave_dup_req,ave_req_delay,ave_dup_rep,ave_rep_delay
0,0,join,-,1000,0,500,0,-,-,-,-
0,1,join,-,1000,0,500,0,-,-,-,-
0,2,join,-,1000,0,500,0,-,-,-,-
0,3,join,-,1000,0,500,0,-,-,-,-
81,1,ask,0/0/0,950,0,500,0,-,500,-,-
81,2,ask,0/0/0,950,0,500,0,-,500,-,-
1079,1,ask,0/0/2,900,0,500,0,1000,493,-,-
1079,2,ask,0/0/2,900,0,500,0,1000,493,-,-
1081,3,data,0:4,1100,0,500,0,1000,500,-,-
"""

# each session: its scenario, its trace, and its table of timers
SESSIONS = [
    (ONE_LOSER, ONE_LOSER_TRACE, ONE_LOSER_TIMERS),
    (TWO_REPAIRERS, TWO_REPAIRERS_TRACE, TWO_REPAIRERS_TIMERS),
    (TWO_REQUESTERS, TWO_REQUESTERS_TRACE, TWO_REQUESTERS_TIMERS),
]
