# Calls of `rv batch`: each answer stands on the line of its call, and one that is refused leaves the others as they are.
# The map and the faults are those of `rv map` and `rv check --format=json`.
# rv: batch
# input: {"id": 1, "sources": [".globl _start; _start: li a0, 7; li a7, 93; ecall"]}\n
# input: {"id": "b", "sources": ["subi a0, a0, 1"]}\nno call\n[1]\n{"id": 2}\n
# input: {"id": 3, "sources": [{"file": "echo.s"}], "input": {"base64": "/gA="}, "want": ["console"]}\n
# input: {"id": 4, "sources": [{"file": "echo.s"}], "input": "\\u00e4", "want": ["console", "count"]}\n
# input: {"id": 5, "sources": [".globl _start; _start: j _start"], "limit": 9, "want": ["end", "count"]}\n
# input: {"id": 6, "sources": [{"name": "x.s", "text": "subi a0"}, "b:"], "want": ["faults"]}\n
# input: {"id": 7, "sources": [".option norvc; .globl _start; _start: ebreak"], "want": ["map"]}\n
# input: {"id": 8, "executable": "none"}\n{"id": 9, "sources": [], "limt": 1}\n{"id": 10, "sources": 1}\n
# input: {"id": 11, "executable": {"base64": "?"}}\n{"id": 12, "sources": ["b:"], "want": ["all"]}\n
# input: {"id": 13, "executable": "", "want": ["map"]}\n{"id": 14, "sources": [], "limit": -1}\n
# input: {"id": 15, "sources": [{"file": "missing.s"}]}\n{"id": 16, "sources": [{"text": "b:", "file": "echo.s"}]}\n
# input: {"id": 17, "sources": [{"name": "y.s", "base64": "c3ViaQ=="}, {"name": 1, "text": ""}]}\n
# input: {"id": 18, "sources": [{"name": "y.s", "base64": "c3ViaQ=="}]}\n
# input: {"id": 19, "executable": {"text": ""}}\n{"id": 20, "executable": "", "want": []}\n
# input: {"id": 21, "sources": [".globl _start; _start: ebreak"], "input": {"file": "echo.s", "base64": ""}}
# out is: answers
# rv: batch --limit 2
# input: {"sources": [".globl _start; _start: li a0, 7; li a7, 93; ecall"]}
# out: {"console":"","end":{"name":"Limit"},"error":"Limit","status":125}\n
# rv: batch
# out:
#--- echo.s
.globl _start
_start: addi a1, sp, -16; li a2, 2; li a0, 0; li a7, 63; ecall; mv a2, a0
li a0, 1; li a7, 64; ecall; li a0, 0; li a7, 93; ecall
#--- answers
{"console":"","end":{"name":"Exited","status":7},"id":1,"status":7}
{"error":"1.s:1: E6 UnknownMnemonic","id":"b","status":1}
{"error":"the line is not JSON","status":2}
{"error":"a call is an object","status":2}
{"error":"a call has either sources or an executable","id":2,"status":2}
{"console":{"base64":"/gA="},"id":3,"status":0}
{"console":"ä","count":12,"id":4,"status":0}
{"count":9,"end":{"name":"Limit"},"error":"Limit","id":5,"status":125}
{"error":"x.s:1: E6 UnknownMnemonic","faults":[{"code":"E6","column":1,"file":"x.s","line":1,"message":"subi is the name of no instruction: addi with the number's negative does it","severity":"error"}],"id":6,"status":1}
{"id":7,"map":"rvmap 1\ntext 10000 10004\nrodata 11000 11000\ndata 11000 11000\nbss 11000 11000\nentry 10000\nglobal _start 10000\nglobal _etext 10004\nglobal __bss_start 11000\nglobal _edata 11000\nglobal _end 11000\nglobal __global_pointer$ 11800\nrow 1 1 3 10000 0 0\nrow 1 1 4 10000 4 1\n","status":0}
{"error":"executable: F1 Truncated","id":8,"status":1}
{"error":"a call has no member limt","id":9,"status":2}
{"error":"sources is a list","id":10,"status":2}
{"error":"base64 is not well-formed","id":11,"status":1}
{"error":"what is wanted is console, end, count, map or faults","id":12,"status":2}
{"error":"an executable has neither a map nor faults","id":13,"status":2}
{"error":"a limit is a number from 0 to 2^64 - 1","id":14,"status":2}
{"error":"missing.s: cannot read","id":15,"status":1}
{"error":"a source is a text, or an object with one of text, base64 and file, and a name or none","id":16,"status":2}
{"error":"a source is a text, or an object with one of text, base64 and file, and a name or none","id":17,"status":2}
{"error":"y.s:1: E6 UnknownMnemonic","id":18,"status":1}
{"error":"an executable is a text, {\"base64\": TEXT} or {\"file\": NAME}","id":19,"status":2}
{"error":"executable: F1 Truncated","id":20,"status":1}
{"error":"an input is a text, {\"base64\": TEXT} or {\"file\": NAME}","id":21,"status":2}
