"""A talk with the debugger: requests, with what has to be in the answers, and the events after each. FOLDER stands for
the folder of the files, and a name with $ for a number that an earlier answer has told. After them are lines for the
console, with what it has to write, and what it says of programs that can't be run, with its status."""
FILES = {
    "talk.b": """/* b: --with ./more.b */
total; row[3] 1, 2, 'c';
word "hello";
add(x, y) {
    auto sum, v 2;
    sum = x + y;
    v[1] = sum;
    return(sum);
}
main() {
    extrn total, row;
    auto i, c;
    i = 0;
    while(i < 3) {
        total = add(total, row[i]);
        i++;
    }
    c = getchar();
    putchar(c); more('!');
    putchar('*n'); exit(total / (c - 'x'));
}
""",
    "more.b": """more(c) {
    putchar(c);
}
""",
    "wrong.b": """main() { x = 1; }
""",
    "loop.b": """main() { auto i; while(1) i++; }
""",
    "copy.b": """/* Copies its input, up to the end. */

main() {
    auto c;

    while((c = getchar()) != '*e')
        putchar(c);

    putchar('.');
}

/* Nothing more. */
""",
    "faults.b": """main() {
    auto i;
    i = 3
    putchar(i);
}
f() { return(y); }
""",
    "nomain.b": """f() { return(3); }
""",
    "nobody.b": """main() { g(1); }
""",
    "empty.b": "",
}
TALK = [('next', {}, 'there is no program'),
 ('nonsense', {}, 'there is no such request'),
 ('initialize',
  {'adapterID': 'b', 'linesStartAt1': True, 'pathFormat': 'path'},
  {'supportsStepBack': True,
   'exceptionBreakpointFilters': [{'filter': 'trap'}, {'filter': 'limit'}, {'filter': 'halt'}, {'filter': 'input'}]}),
 ('setBreakpoints', {'source': {'path': 'FOLDER/talk.b'}, 'breakpoints': [{'line': 1}]}, 'there is no program'),
 ('launch', {'program': 'FOLDER/none.b'}, "FOLDER/none.b can't be read: No such file or directory"),
 ('launch',
  {'program': 'FOLDER/wrong.b'},
  "wrong.b can't be run: lv 1",
  ('output',
   {'category': 'stderr',
    'output': 'wrong.b:1:10: error: x is taken for a label here, which has no address\n'
              '  fix: declare it first: auto x; or extrn x;\n'}),
  ('terminated', {})),
 ('launch', {}, 'program is missing or wrong'),
 ('launch', {'program': 'FOLDER/talk.b', 'edition': 3}, 'edition has to be 1 or 2, and libs a list of names'),
 ('launch', {'program': 'FOLDER/talk.b', 'stopOnEntry': True, 'steps': 100000}, {}, ('initialized', {})),
 ('launch', {'program': 'FOLDER/talk.b'}, 'a program is there already'),
 ('loadedSources',
  {},
  {'sources': [{'name': 'talk.b', 'path': 'FOLDER/talk.b'}, {'name': 'more.b', 'path': 'FOLDER/more.b'}]}),
 ('source', {'source': {'path': 'FOLDER/more.b'}}, {'content': 'more(c) {\n    putchar(c);\n}\n'}),
 ('source', {'source': {'path': '/etc/passwd'}}, 'this file is none of the program'),
 ('breakpointLocations',
  {'source': {'path': 'FOLDER/talk.b'}, 'line': 1, 'endLine': 14},
  {'breakpoints': [{'line': 5}, {'line': 6}, {'line': 7}, {'line': 8}, {'line': 9}, {'line': 13}, {'line': 14}]}),
 ('setBreakpoints',
  {'source': {'path': 'FOLDER/talk.b'},
   'breakpoints': [{'line': 2},
                   {'line': 7, 'condition': 'sum > 90'},
                   {'line': 14, 'logMessage': 'i is {i}, and {nothing}'},
                   {'line': 16, 'hitCondition': 'often'},
                   {'line': 99}]},
  {'breakpoints': [{'id': 1, 'verified': True, 'line': 5, 'source': {'name': 'talk.b'}},
                   {'id': 2, 'verified': True, 'line': 7, 'source': {'name': 'talk.b'}},
                   {'id': 3, 'verified': True, 'line': 14, 'source': {'name': 'talk.b'}},
                   {'id': 4,
                    'verified': False,
                    'message': 'often is no count of hits',
                    'line': 16,
                    'source': {'name': 'talk.b'}},
                   {'id': 5,
                    'verified': False,
                    'message': 'no code comes after this line',
                    'line': 99,
                    'source': {'name': 'talk.b'}}]}),
 ('setBreakpoints',
  {'source': {'path': 'FOLDER/other.b'}, 'lines': [3]},
  {'breakpoints': [{'id': 6,
                    'verified': False,
                    'message': 'this file is none of the program',
                    'line': 3,
                    'source': {'path': 'FOLDER/other.b'}}]}),
 ('setFunctionBreakpoints',
  {'breakpoints': [{'name': 'more'}, {'name': 'less'}]},
  {'breakpoints': [{'id': 7, 'verified': True},
                   {'id': 8, 'verified': False, 'message': 'there is no function less'}]}),
 ('setExceptionBreakpoints',
  {'filters': ['trap', 'halt', 'nothing']},
  {'breakpoints': [{'verified': True}, {'verified': True}, {'verified': False}]}),
 ('threads', {}, {'threads': [{'id': 1, 'name': 'main'}]}),
 ('stackTrace', {'threadId': 1}, "the program doesn't stand"),
 ('configurationDone', {}, {}, ('stopped', {'reason': 'entry', 'text': 'the first step'})),
 ('configurationDone', {}, 'the configuration is done already'),
 ('stackTrace',
  {'threadId': 1},
  {'stackFrames': [{'name': 'main', 'source': {'name': 'talk.b'}, 'line': 13}], 'totalFrames': 1}),
 ('next',
  {'threadId': 1},
  {},
  ('output', {'category': 'console', 'output': 'i is 0, and {nothing is no name here}\n'}),
  ('stopped', {'reason': 'step'})),
 ('stackTrace',
  {'threadId': 1},
  {'stackFrames': [{'name': 'main', 'source': {'name': 'talk.b'}, 'line': 14}], 'totalFrames': 1}),
 ('scopes',
  {'frameId': '$frame0'},
  {'scopes': [{'name': 'Locals', 'namedVariables': 2}, {'name': 'Externals', 'namedVariables': 3}]}),
 ('scopes', {'frameId': 77}, 'there is no such call any more'),
 ('continue',
  {'threadId': 1},
  {'allThreadsContinued': True},
  ('stopped', {'reason': 'breakpoint', 'hitBreakpointIds': [1]})),
 ('stackTrace',
  {'threadId': 1},
  {'stackFrames': [{'name': 'add', 'source': {'name': 'talk.b'}, 'line': 5},
                   {'name': 'main', 'source': {'name': 'talk.b'}, 'line': 15}],
   'totalFrames': 2}),
 ('scopes',
  {'frameId': '$frame0'},
  {'scopes': [{'name': 'Locals', 'namedVariables': 4}, {'name': 'Externals', 'namedVariables': 3}]}),
 ('variables',
  {'variablesReference': '$Locals'},
  {'variables': [{'name': 'x', 'value': '0', 'evaluateName': 'x', 'memoryReference': '0x2c'},
                 {'name': 'y', 'value': '1', 'evaluateName': 'y', 'memoryReference': '0x2e'},
                 {'name': 'sum', 'value': '0', 'evaluateName': 'sum', 'memoryReference': '0x30'},
                 {'name': 'v',
                  'value': '0',
                  'evaluateName': 'v',
                  'memoryReference': '0x32',
                  'indexedVariables': 3}]}),
 ('variables',
  {'variablesReference': '$Externals'},
  {'variables': [{'name': 'total', 'value': '0', 'evaluateName': 'total', 'memoryReference': '0xe'},
                 {'name': 'row',
                  'value': '9',
                  'evaluateName': 'row',
                  'memoryReference': '0x10',
                  'indexedVariables': 4},
                 {'name': 'word', 'value': '14 "hello"', 'evaluateName': 'word', 'memoryReference': '0x1a'}]}),
 ('variables',
  {'variablesReference': '$of row'},
  {'variables': [{'name': '[0]', 'value': '1', 'evaluateName': 'row[0]', 'memoryReference': '0x12'},
                 {'name': '[1]', 'value': '2', 'evaluateName': 'row[1]', 'memoryReference': '0x14'},
                 {'name': '[2]', 'value': "99 'c'", 'evaluateName': 'row[2]', 'memoryReference': '0x16'},
                 {'name': '[3]', 'value': '0', 'evaluateName': 'row[3]', 'memoryReference': '0x18'}]}),
 ('variables',
  {'variablesReference': '$of row', 'start': 1, 'count': 2, 'filter': 'indexed', 'format': {'hex': True}},
  {'variables': [{'name': '[1]', 'value': '0x0002', 'evaluateName': 'row[1]', 'memoryReference': '0x14'},
                 {'name': '[2]', 'value': "0x0063 'c'", 'evaluateName': 'row[2]', 'memoryReference': '0x16'}]}),
 ('variables', {'variablesReference': 9999}, 'there are no such variables any more'),
 ('next', {'threadId': 1}, {}, ('stopped', {'reason': 'step'})),
 ('stackTrace',
  {'threadId': 1},
  {'stackFrames': [{'name': 'add', 'source': {'name': 'talk.b'}, 'line': 6},
                   {'name': 'main', 'source': {'name': 'talk.b'}, 'line': 15}],
   'totalFrames': 2}),
 ('next', {'threadId': 1}, {}, ('stopped', {'reason': 'step'})),
 ('stepBack', {'threadId': 1}, {}, ('stopped', {'reason': 'step'})),
 ('stackTrace',
  {'threadId': 1, 'startFrame': 1, 'levels': 1},
  {'stackFrames': [{'name': 'main', 'source': {'name': 'talk.b'}, 'line': 15}], 'totalFrames': 2}),
 ('evaluate', {'expression': 'sum + x*2 - v[1]', 'frameId': '$frame0', 'context': 'watch'}, 'sum is no name here'),
 ('stackTrace',
  {'threadId': 1},
  {'stackFrames': [{'name': 'add', 'source': {'name': 'talk.b'}, 'line': 6},
                   {'name': 'main', 'source': {'name': 'talk.b'}, 'line': 15}],
   'totalFrames': 2}),
 ('evaluate',
  {'expression': 'sum + x*2 - v[1]', 'frameId': '$frame0', 'context': 'watch'},
  {'result': '0', 'type': 'word'}),
 ('evaluate',
  {'expression': 'v', 'frameId': '$frame0', 'context': 'hover'},
  {'result': '26', 'type': 'vector', 'memoryReference': '0x32', 'indexedVariables': 3}),
 ('evaluate', {'expression': '&v[1]', 'frameId': '$frame0', 'context': 'hover'}, {'result': '27', 'type': 'word'}),
 ('evaluate',
  {'expression': 'i', 'frameId': '$frame1', 'context': 'hover'},
  {'result': '0', 'type': 'word', 'memoryReference': '0x28'}),
 ('evaluate', {'expression': 'i', 'frameId': '$frame0'}, 'i is no name here'),
 ('evaluate',
  {'expression': 'word', 'context': 'watch'},
  {'result': '14 "hello"', 'type': 'word', 'memoryReference': '0x1a'}),
 ('evaluate',
  {'expression': 'x = 3', 'frameId': '$frame0', 'context': 'watch'},
  'nothing is stored here: the debug console stores'),
 ('evaluate',
  {'expression': 'add(1, 2)', 'frameId': '$frame0', 'context': 'watch'},
  'no function is called in an expression'),
 ('evaluate', {'expression': '1 +', 'context': 'watch'}, 'an operand is missing at the end'),
 ('evaluate', {'expression': '1 / 0', 'context': 'watch'}, 'division by 0'),
 ('evaluate',
  {'expression': ':help', 'context': 'repl'},
  {'result': ':input TEXT      gives the program TEXT and a newline as input\n'
             ':input < FILE    gives it the bytes of FILE\n'
             ':input           closes its input\n'
             ':reverse-step    goes back to the line before, also of a function that was called\n'
             ':reverse-finish  goes back to the call of this function\n'
             'All else is an expression of B, which may store: x = 5, v[2] =+ 1, p++\n'}),
 ('evaluate',
  {'expression': ':reverse-step', 'context': 'repl'},
  {'result': ''},
  ('stopped', {'reason': 'step'})),
 ('stackTrace',
  {'threadId': 1},
  {'stackFrames': [{'name': 'add', 'source': {'name': 'talk.b'}, 'line': 5},
                   {'name': 'main', 'source': {'name': 'talk.b'}, 'line': 15}],
   'totalFrames': 2}),
 ('evaluate',
  {'expression': ':reverse-finish', 'context': 'repl'},
  {'result': ''},
  ('stopped', {'reason': 'step'})),
 ('stackTrace',
  {'threadId': 1},
  {'stackFrames': [{'name': 'main', 'source': {'name': 'talk.b'}, 'line': 15}], 'totalFrames': 1}),
 ('completions', {'text': 'row[to', 'column': 7, 'frameId': '$frame0'}, {'targets': [{'label': 'total'}]}),
 ('dataBreakpointInfo',
  {'name': 'total'},
  {'dataId': '7 total', 'description': 'total at 7', 'accessTypes': ['write']}),
 ('dataBreakpointInfo', {'name': '1 + 2'}, {'dataId': None, 'description': '1 + 2 has no address'}),
 ('dataBreakpointInfo',
  {'name': 'total'},
  {'dataId': '7 total', 'description': 'total at 7', 'accessTypes': ['write']}),
 ('setDataBreakpoints',
  {'breakpoints': [{'dataId': '$data', 'accessType': 'write'}, {'dataId': 'x'}]},
  {'breakpoints': [{'id': 9, 'verified': True}, {'id': 10, 'verified': False, 'message': 'there is no such word'}]}),
 ('setBreakpoints', {'source': {'path': 'FOLDER/talk.b'}, 'breakpoints': []}, {'breakpoints': []}),
 ('continue',
  {'threadId': 1},
  {'allThreadsContinued': True},
  ('stopped', {'reason': 'data breakpoint', 'hitBreakpointIds': [9], 'text': 'total = 1'})),
 ('evaluate', {'expression': 'total', 'context': 'watch'}, {'result': '1', 'type': 'word', 'memoryReference': '0xe'}),
 ('continue',
  {'threadId': 1},
  {'allThreadsContinued': True},
  ('stopped', {'reason': 'data breakpoint', 'hitBreakpointIds': [9], 'text': 'total = 3'})),
 ('evaluate', {'expression': 'total', 'context': 'watch'}, {'result': '3', 'type': 'word', 'memoryReference': '0xe'}),
 ('reverseContinue',
  {'threadId': 1},
  {},
  ('stopped', {'reason': 'data breakpoint', 'hitBreakpointIds': [9], 'text': 'total = 1'})),
 ('evaluate', {'expression': 'total', 'context': 'watch'}, {'result': '1', 'type': 'word', 'memoryReference': '0xe'}),
 ('setDataBreakpoints', {'breakpoints': []}, {'breakpoints': []}),
 ('next', {'threadId': 1}, {}, ('stopped', {'reason': 'step'})),
 ('next', {'threadId': 1}, {}, ('stopped', {'reason': 'step'})),
 ('next', {'threadId': 1}, {}, ('stopped', {'reason': 'step'})),
 ('stackTrace',
  {'threadId': 1},
  {'stackFrames': [{'name': 'main', 'source': {'name': 'talk.b'}, 'line': 15}], 'totalFrames': 1}),
 ('stepIn', {'threadId': 1}, {}, ('stopped', {'reason': 'step'})),
 ('stackTrace',
  {'threadId': 1},
  {'stackFrames': [{'name': 'add', 'source': {'name': 'talk.b'}, 'line': 5},
                   {'name': 'main', 'source': {'name': 'talk.b'}, 'line': 15}],
   'totalFrames': 2}),
 ('stepOut', {'threadId': 1}, {}, ('stopped', {'reason': 'step'})),
 ('stackTrace',
  {'threadId': 1},
  {'stackFrames': [{'name': 'main', 'source': {'name': 'talk.b'}, 'line': 15}], 'totalFrames': 1}),
 ('reverseContinue', {'threadId': 1}, {}, ('stopped', {'reason': 'entry', 'text': 'the first step'})),
 ('stepBack', {'threadId': 1}, {}, ('stopped', {'reason': 'entry', 'text': 'the first step'})),
 ('stepIn', {'threadId': 1, 'granularity': 'instruction'}, {}, ('stopped', {'reason': 'step'})),
 ('next', {'threadId': 1, 'granularity': 'instruction'}, {}, ('stopped', {'reason': 'step'})),
 ('stepBack', {'threadId': 1, 'granularity': 'instruction'}, {}, ('stopped', {'reason': 'step'})),
 ('stackTrace',
  {'threadId': 1},
  {'stackFrames': [{'name': 'main', 'source': {'name': 'talk.b'}, 'line': 13}], 'totalFrames': 1}),
 ('disassemble',
  {'memoryReference': '$code0', 'instructionOffset': -2, 'instructionCount': 4},
  {'instructions': [{'address': '0x100120018',
                     'instruction': 'r',
                     'location': {'name': 'talk.b', 'path': 'FOLDER/talk.b'},
                     'line': 9},
                    {'address': '0x100130000',
                     'instruction': 'a 0',
                     'location': {'name': 'talk.b', 'path': 'FOLDER/talk.b'},
                     'line': 13,
                     'symbol': 'main'},
                    {'address': '0x100130001',
                     'instruction': 'c 0',
                     'location': {'name': 'talk.b', 'path': 'FOLDER/talk.b'},
                     'line': 13},
                    {'address': '0x100130002',
                     'instruction': 'w',
                     'location': {'name': 'talk.b', 'path': 'FOLDER/talk.b'},
                     'line': 13}]}),
 ('disassemble', {'memoryReference': 'nonsense', 'instructionCount': 1}, "'nonsense' is no reference"),
 ('setInstructionBreakpoints',
  {'breakpoints': [{'instructionReference': '$code0', 'offset': 5}, {'instructionReference': '0x0'}]},
  {'breakpoints': [{'id': 11, 'verified': True},
                   {'id': 12, 'verified': False, 'message': 'no instruction is there'}]}),
 ('continue',
  {'threadId': 1},
  {'allThreadsContinued': True},
  ('stopped', {'reason': 'breakpoint', 'hitBreakpointIds': [11]})),
 ('stackTrace',
  {'threadId': 1},
  {'stackFrames': [{'name': 'main', 'source': {'name': 'talk.b'}, 'line': 14}], 'totalFrames': 1}),
 ('reverseContinue', {'threadId': 1}, {}, ('stopped', {'reason': 'entry', 'text': 'the first step'})),
 ('setInstructionBreakpoints', {'breakpoints': []}, {'breakpoints': []}),
 ('next', {'threadId': 1}, {}, ('stopped', {'reason': 'step'})),
 ('next', {'threadId': 1}, {}, ('stopped', {'reason': 'step'})),
 ('stackTrace',
  {'threadId': 1},
  {'stackFrames': [{'name': 'main', 'source': {'name': 'talk.b'}, 'line': 15}], 'totalFrames': 1}),
 ('readMemory',
  {'memoryReference': '0xe', 'offset': 2, 'count': 8},
  {'address': '0x10', 'data': 'CQABAAIAYwA=', 'unreadableBytes': 0}),
 ('scopes',
  {'frameId': '$frame0'},
  {'scopes': [{'name': 'Locals', 'namedVariables': 2}, {'name': 'Externals', 'namedVariables': 3}]}),
 ('variables',
  {'variablesReference': '$Locals'},
  {'variables': [{'name': 'i', 'value': '0', 'evaluateName': 'i', 'memoryReference': '0x28'},
                 {'name': 'c', 'value': '0', 'evaluateName': 'c', 'memoryReference': '0x2a'}]}),
 ('setVariable', {'variablesReference': '$Locals', 'name': 'i', 'value': '1 + 1'}, {'value': '2'}),
 ('setVariable', {'variablesReference': '$Locals', 'name': 'j', 'value': '1'}, 'there is no variable j'),
 ('setExpression', {'expression': 'row[2]', 'value': "'d'", 'frameId': '$frame0'}, {'value': "100 'd'"}),
 ('setExpression', {'expression': '1', 'value': '2'}, 'this expression has no address'),
 ('evaluate',
  {'expression': 'total =+ 10', 'context': 'repl', 'frameId': '$frame0'},
  {'result': '10', 'type': 'word'}),
 ('variables',
  {'variablesReference': '$Locals'},
  {'variables': [{'name': 'i', 'value': '2', 'evaluateName': 'i', 'memoryReference': '0x28'},
                 {'name': 'c', 'value': '0', 'evaluateName': 'c', 'memoryReference': '0x2a'}]}),
 ('continue',
  {'threadId': 1},
  {'allThreadsContinued': True},
  ('output',
   {'category': 'console', 'output': 'The program wants input. Type `:input TEXT` here, or `:input` to close it.\n'})),
 ('stackTrace', {'threadId': 1}, "the program doesn't stand"),
 ('pause', {'threadId': 1}, {}, ('stopped', {'reason': 'pause'})),
 ('continue',
  {'threadId': 1},
  {'allThreadsContinued': True},
  ('output',
   {'category': 'console', 'output': 'The program wants input. Type `:input TEXT` here, or `:input` to close it.\n'})),
 ('evaluate',
  {'expression': ':input x', 'context': 'repl'},
  {'result': ''},
  ('output', {'category': 'stdout', 'output': 'x'}),
  ('stopped', {'reason': 'breakpoint', 'hitBreakpointIds': [7]})),
 ('evaluate', {'expression': 'c', 'frameId': '$frame0'}, 'there is no such call any more'),
 ('stackTrace',
  {'threadId': 1},
  {'stackFrames': [{'name': 'more', 'source': {'name': 'more.b'}, 'line': 2},
                   {'name': 'main', 'source': {'name': 'talk.b'}, 'line': 19}],
   'totalFrames': 2}),
 ('continue',
  {'threadId': 1},
  {'allThreadsContinued': True},
  ('output', {'category': 'stdout', 'output': '!\n'}),
  ('stopped', {'reason': 'exception', 'text': 'trap dz: division by 0'})),
 ('exceptionInfo',
  {'threadId': 1},
  {'exceptionId': 'trapped', 'description': 'trap dz: division by 0', 'breakMode': 'always'}),
 ('stepBack', {'threadId': 1}, {}, ('stopped', {'reason': 'step'})),
 ('stepBack', {'threadId': 1}, {}, ('stopped', {'reason': 'step'})),
 ('evaluate',
  {'expression': 'total', 'context': 'watch'},
  {'result': "110 'n'", 'type': 'word', 'memoryReference': '0xe'}),
 ('evaluate', {'expression': ':input', 'context': 'repl'}, {'result': ''}),
 ('evaluate',
  {'expression': ':input more', 'context': 'repl'},
  'the input was closed'),
 ('cancel', {'requestId': 3}, {}),
 ('restart',
  {'arguments': {'program': 'FOLDER/talk.b', 'inputText': 'A'}},
  {},
  ('output', {'category': 'stdout', 'output': 'A'}),
  ('stopped', {'reason': 'breakpoint', 'hitBreakpointIds': [7]})),
 ('exceptionInfo', {'threadId': 1}, {'exceptionId': 'breakpoint', 'description': '', 'breakMode': 'always'}),
 ('setFunctionBreakpoints', {'breakpoints': []}, {'breakpoints': []}),
 ('continue',
  {'threadId': 1},
  {'allThreadsContinued': True},
  ('output', {'category': 'stdout', 'output': '!\n'}),
  ('stopped', {'reason': 'exception', 'text': 'the program has ended with status 127'})),
 ('stepBack', {'threadId': 1}, {}, ('stopped', {'reason': 'step'})),
 ('continue',
  {'threadId': 1},
  {'allThreadsContinued': True},
  ('stopped', {'reason': 'exception', 'text': 'the program has ended with status 127'})),
 ('continue',
  {'threadId': 1},
  {'allThreadsContinued': True},
  ('output', {'category': 'console', 'output': 'the program has ended with status 127\n'}),
  ('exited', {'exitCode': 127}),
  ('terminated', {})),
 ('threads', {}, {'threads': [{'id': 1, 'name': 'main'}]}),
 ('launch', {'program': 'FOLDER/talk.b', 'inputText': 'y', 'noDebug': True}, {}, ('initialized', {})),
 ('configurationDone',
  {},
  {},
  ('output', {'category': 'stdout', 'output': 'y!\n'}),
  ('output', {'category': 'console', 'output': 'the program has ended with status 102\n'}),
  ('exited', {'exitCode': 102}),
  ('terminated', {})),
 ('launch',
  {'program': 'FOLDER/faults.b'},
  "faults.b can't be run: sx 4",
  ('output',
   {'category': 'stderr',
    'output': 'faults.b:4:5: error: line 3 has no ; at its end\n'
              '  fix: write the ; there, or go on with an operator\n'
              'faults.b:6:14: error: y is neither declared nor a label\n'
              '  fix: auto y; for a word of the function, extrn y; for an external\n'}),
  ('terminated', {})),
 ('launch',
  {'program': 'FOLDER/nobody.b'},
  "nobody.b can't be run: load 3",
  ('output',
   {'category': 'stderr',
    'output': 'nobody.b:1:10: error: nothing defines g\n  fix: define it, or take one of the six library calls\n'}),
  ('terminated', {})),
 ('launch',
  {'program': 'FOLDER/nomain.b'},
  "nomain.b can't be run: load 4",
  ('output',
   {'category': 'stderr',
    'output': 'nomain.b: error: there is no function main\n'
              '  fix: write a function main, with which a run begins\n'}),
  ('terminated', {})),
 ('launch',
  {'program': 'FOLDER/copy.b', 'input': 'FOLDER/$(touch HARM)'},
  "FOLDER/$(touch HARM) can't be read: No such file or directory"),
 ('launch', {'program': 'FOLDER/copy.b', 'libs': ['$(touch HARM)']}, 'the library has no $(touch HARM)'),
 ('launch', {'program': 'FOLDER/copy.b', 'libs': ["a'b\n.b"]}, "FOLDER/a'b\n.b can't be read: No such file or directory"),
 ('launch', {'program': 'FOLDER/copy.b', 'inputText': 'ab'}, {}, ('initialized', {})),
 ('setExceptionBreakpoints', {'filters': []}, {'breakpoints': []}),
 ('setFunctionBreakpoints',
  {'breakpoints': [{'name': '$(touch HARM)'}]},
  {'breakpoints': [{'id': 1, 'verified': False, 'message': 'there is no function $(touch HARM)'}]}),
 ('setBreakpoints',
  {'source': {'path': 'FOLDER/copy.b'},
   'breakpoints': [{'line': 1, 'hitCondition': '% 99'},
                   {'line': 7, 'logMessage': '$(touch HARM) {c} {`touch HARM`} {c.__class__} %s {0}'},
                   {'line': 8, 'condition': '__import__("os").system("touch HARM")'},
                   {'line': 10, 'condition': '$(touch HARM)'},
                   {'line': 11},
                   {'line': 9, 'hitCondition': '$(touch HARM)'}]},
  {'breakpoints': [{'verified': True, 'line': 6},
                   {'verified': True, 'line': 7},
                   {'verified': True, 'line': 9},
                   {'verified': True, 'line': 10},
                   {'verified': False, 'line': 11, 'message': 'no code comes after this line'},
                   {'verified': False, 'line': 9, 'message': '$(touch HARM) is no count of hits'}]}),
 ('configurationDone',
  {},
  {},
  ('output',
   {'category': 'console',
    'output': "$(touch HARM) 97 'a' {no token begins with '`'} {no token begins with '.'} %s 0\n"}),
  ('output', {'category': 'stdout', 'output': 'a'}),
  ('output',
   {'category': 'console',
    'output': "$(touch HARM) 98 'b' {no token begins with '`'} {no token begins with '.'} %s 0\n"}),
  ('output', {'category': 'stdout', 'output': 'b'}),
  ('output', {'category': 'console', 'output': "the input has ended: getchar gives '*e' from here on\n"}),
  ('output',
   {'category': 'console',
    'output': 'the condition \'__import__("os").system("touch HARM")\': no token begins with \'.\'\n'}),
  ('stopped', {'reason': 'breakpoint', 'hitBreakpointIds': [4]})),
 ('evaluate', {'expression': 'c', 'frameId': 1, 'context': 'repl'}, 'there is no such call any more'),
 ('evaluate', {'expression': '$(touch HARM)', 'context': 'repl'}, "no token begins with '$'"),
 ('evaluate',
  {'expression': ':input < $(touch HARM)', 'context': 'repl'},
  "$(touch HARM) can't be read: No such file or directory"),
 ('evaluate', {'expression': ':input more', 'context': 'repl'}, 'the input was closed'),
 ('reverseContinue', {'threadId': 1}, {}, ('stopped', {'reason': 'breakpoint', 'hitBreakpointIds': [2]})),
 ('continue',
  {'threadId': 1},
  {'allThreadsContinued': True},
  ('output',
   {'category': 'console',
    'output': 'the condition \'__import__("os").system("touch HARM")\': no token begins with \'.\'\n'}),
  ('stopped', {'reason': 'breakpoint', 'hitBreakpointIds': [4]})),
 ('setBreakpoints', {'source': {'path': 'FOLDER/copy.b'}, 'breakpoints': []}, {'breakpoints': []}),
 ('setFunctionBreakpoints', {'breakpoints': []}, {'breakpoints': []}),
 ('continue',
  {'threadId': 1},
  {'allThreadsContinued': True},
  ('output', {'category': 'stdout', 'output': '.'}),
  ('output', {'category': 'console', 'output': 'the program has ended with status 0\n'}),
  ('exited', {'exitCode': 0}),
  ('terminated', {})),
 ('launch', {'program': 'FOLDER/loop.b', 'steps': 1000}, {}, ('initialized', {})),
 ('configurationDone',
  {},
  {},
  ('output', {'category': 'console', 'output': '1000 steps were made\n'}),
  ('exited', {'exitCode': 131}),
  ('terminated', {})),
 ('stackTrace', {'threadId': 1}, 'there is no program'),
 ('continue', {'threadId': 1}, 'there is no program'),
 ('launch', {'program': 'FOLDER/loop.b'}, {}, ('initialized', {})),
 ('configurationDone', {}, {}),
 ('next', {'threadId': 1}, "the program doesn't stand"),
 ('pause', {'threadId': 1}, {}, ('stopped', {'reason': 'pause'})),
 ('stackTrace',
  {'threadId': 1},
  {'stackFrames': [{'name': 'main', 'source': {'name': 'loop.b'}, 'line': 1}], 'totalFrames': 1}),
 ('terminate', {}, {}, ('terminated', {})),
 ('terminate', {}, 'there is no program'),
 ('disconnect', {}, {})]
AFTER = [
    ("talk.b", """\
break add if x > 0
run
backtrace
info locals
finish
print total
watch row[2]
reverse-continue
delete 1
continue
input x
quit
""", """\
(b) breakpoint 1 at add
(b) breakpoint 1
#0 add(x=1, y=2) at talk.b:5
5	    auto sum, v 2;
(b) #0 add(x=1, y=2) at talk.b:5
#1 main() at talk.b:15
(b) x = 1
y = 2
sum = 1
v = 26 [0, 1, 0]
(b) #0 main() at talk.b:15
15	        total = add(total, row[i]);
(b) total = 1
(b) breakpoint 2 at row[2]
(b) breakpoint 1
#0 add(x=1, y=2) at talk.b:5
5	    auto sum, v 2;
(b) (b) the program wants input: type  input TEXT
(b) x!
trap dz: division by 0
#0 main() at talk.b:20
20	    putchar('*n'); exit(total / (c - 'x'));
(b) """),
    ("talk.b", """\
start
next

step
next
print v[1] + y
set y = 40
reverse-step
step
print y
reverse-finish
reverse-next
reverse-stepi
list 12
frame 1
nothing
print 1 / 0
break 99
""", """\
(b) the first step
#0 main() at talk.b:13
13	    i = 0;
(b) #0 main() at talk.b:14
14	    while(i < 3) {
(b) #0 main() at talk.b:15
15	        total = add(total, row[i]);
(b) #0 add(x=0, y=1) at talk.b:5
5	    auto sum, v 2;
(b) #0 add(x=0, y=1) at talk.b:6
6	    sum = x + y;
(b) v[1] + y = 1
(b) (b) #0 add(x=0, y=1) at talk.b:5
5	    auto sum, v 2;
(b) #0 add(x=0, y=40 '(') at talk.b:6
6	    sum = x + y;
(b) y = 40 '('
(b) #0 main() at talk.b:15
15	        total = add(total, row[i]);
(b) #0 main() at talk.b:15
15	        total = add(total, row[i]);
(b) #0 main() at talk.b:14
14	    while(i < 3) {
(b) 7	    v[1] = sum;
8	    return(sum);
9	}
10	main() {
11	    extrn total, row;
12	    auto i, c;
13	    i = 0;
14	    while(i < 3) {
15	        total = add(total, row[i]);
16	        i++;
(b) there is no such call
(b) there is no command nothing; help lists them
(b) division by 0
(b) no code is there
(b) """),
    ("talk.b", """\
run
input < talk.b
reverse-next
info steps
goto 3
stepi 2
info steps
quit
""", """\
(b) the program wants input: type  input TEXT
(b) /!
the program has ended with status 127
(b) #0 main() at talk.b:20
20	    putchar('*n'); exit(total / (c - 'x'));
(b) 172
(b) #0 main() at talk.b:13
13	    i = 0;
(b) #0 main() at talk.b:14
14	    while(i < 3) {
#0 main() at talk.b:14
14	    while(i < 3) {
(b) 5
(b) """),
    ("copy.b", """\
print $(touch HARM)
!touch HARM
shell touch HARM
input < $(touch HARM)
break $(touch HARM)
break copy.b:1 if __import__("os").system("touch HARM")
break 11
break 8
delete 1
run
input ab
input more
input
continue
input nothing
reverse-next
print c
list x
watch `touch HARM`
continue
quit
""", """\
(b) no token begins with '$'
(b) there is no command !touch; help lists them
(b) there is no command shell; help lists them
(b) $(touch HARM) can't be read: No such file or directory
(b) there is no function $(touch HARM)
(b) breakpoint 1 at copy.b:6
(b) no code is there
(b) breakpoint 2 at copy.b:9
(b) (b) the program wants input: type  input TEXT
(b) ab
the program wants input: type  input TEXT
(b) more
the program wants input: type  input TEXT
(b) the input has ended: getchar gives '*e' from here on
breakpoint 2
#0 main() at copy.b:9
9	    putchar('.');
(b) .
the program has ended with status 0
(b) the input was closed
(b) #0 main() at copy.b:10
10	}
(b) c = 4
(b) a number is wrong here
(b) no token begins with '`'
(b) the program has ended with status 0
(b) """),
]
REFUSED = {
    "faults.b": (1, """\
faults.b:4:5: error: line 3 has no ; at its end
  fix: write the ; there, or go on with an operator
faults.b:6:14: error: y is neither declared nor a label
  fix: auto y; for a word of the function, extrn y; for an external
sx 4
"""),
    "nobody.b": (132, """\
nobody.b:1:10: error: nothing defines g
  fix: define it, or take one of the six library calls
load 3
"""),
    "nomain.b": (132, """\
nomain.b: error: there is no function main
  fix: write a function main, with which a run begins
load 4
"""),
    "empty.b": (132, """\
empty.b: error: there is no function main
  fix: write a function main, with which a run begins
load 4
"""),
    "$(touch HARM).b": (133, "b_dap.py: FOLDER/$(touch HARM).b can't be read: No such file or directory\n"),
}
