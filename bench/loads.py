"""The loads: texts whose size is a number n. A text has at most 4,194,304 bytes."""

TEXT = 4194304


def path(n):
    """One path of n states."""
    return 'contract B { out message A(); in message Z(); state S: ' + 'A!->' * (n - 1) + 'T; state T: Z? -> S; }'


def ring(n):
    """One ring of n states, with a finding for each."""
    return 'contract B { out message A(); state S: ' + 'A!->' * n + 'S; }'


def named_states(n):
    """n named states, every second one a choice."""
    one = 'state S%d:A!->S%d;'
    return 'contract B { out message A(); ' + ''.join(one % (k, k + 1) for k in range(n)) + 'state S%d: ; }' % n


def messages(n):
    """n messages, and a state with an edge for each."""
    declared = ''.join('out message M%d();' % k for k in range(n))
    edges = ''.join('M%d!->E;' % k for k in range(n))
    return 'contract B { ' + declared + 'state S: one { ' + edges + '} state E: ; }'


def contracts_256(n):
    """256 contracts of n edges in all, which use each other's types."""
    each = max(1, n // 256)
    one = 'contract C%d { in message A(C%d.Imp:S%d c); out message B(); '
    states = ''.join('state S%d:A?->B!->S%d;' % (k, (k + 1) % each) for k in range(each))
    return ''.join(one % (c, (c + 1) % 256, each - 1) + states + '}\n' for c in range(256))


def comment(n):
    """One comment of n lines of 80 bytes."""
    return '/*' + ('* ' + 'y' * 77 + '\n') * n + '*/'


def line_comments(n):
    """n line comments of 79 bytes each."""
    return ('// ' + 'x' * 76 + '\n') * n


def short_comments(n):
    """n empty comments."""
    return '/**/' * n


def declared_twice(n):
    """n messages with one name, and n states with one name."""
    return 'contract B { ' + 'in message M();' * n + 'state S: ;' * n + '}'


def long_names(n):
    """n messages whose names share a long beginning."""
    return 'contract B { ' + ''.join('in message %s%d();' % ('x' * 100, k) for k in range(n)) + 'state S: ; }'


def in_method(statements):
    """Returns a program of one method with these statements."""
    return 'rep struct D { int n; }\nclass K { static void F(bool b, D* in ExHeap p, int[] in ExHeap a) {\n' + statements + '} }\n'


def statements(n):
    """n assignments in a row."""
    return in_method('int k;\n' + 'k = k + p.n * a[0];\n' * n)


def else_ifs(n):
    """One `if` with n further tests."""
    return in_method('if (b) { }' + ' else if (b) { }' * n)


def long_sum(n):
    """One sum of n parts."""
    return in_method('int k = 1' + ' + p.n' * n + ';')


def deep_parentheses(n):
    """Numbers in 90 pairs of parentheses, n pairs in all."""
    return in_method('int k;\n' + ('k = ' + '(' * 90 + '1' + ')' * 90 + ';\n') * max(1, n // 90))


def deep_blocks(n):
    """Empty blocks nested 90 deep, n in all."""
    return in_method(('{' * 90 + '}' * 90 + '\n') * max(1, n // 90))


def methods(n):
    """The greatest number of methods, which call each other, with n calls in all."""
    count = min(4096, n)
    calls = ''.join('M%d(b); ' % k for k in range(n // count))
    return 'class K {\n' + ''.join('static void M%d(bool b) { %s}\n' % (k, calls) for k in range(count)) + '}\n'


def expressions(n):
    """n sums of products and elements, each followed by a test and a minus sign, eight in each method."""
    parts = ' + '.join('a * %d - v[a + %d]' % (k, k) for k in range(6))
    work = ('r = ' + parts + '; if (r < a && (b || r != 3)) { v[r] = -a; }\n') * 8
    one = 'static int F%d(int a, bool b, int[] in ExHeap v) { int r;\n' + work + 'return r; }\n'
    return 'class K {\n' + ''.join(one % k for k in range(max(1, n // 8))) + '}\n'


def turns(n):
    """n blocks freed on both branches of a test, each followed by a loop with a send and a switch, eight in each method."""
    contract = 'contract B { in message Ask(); out message Tell(); state S: Ask? -> Tell! -> S; }\nrep struct D { int n; }\n'
    block = '{ D* in ExHeap p = new[ExHeap] D(); if (b) { delete p; } else { p.n = 1; delete p; } }\n'
    loop = 'while (b) { i.SendAsk(); switch receive { case i.Tell(): break; case i.ChannelClosed(): break; } }\n'
    one = 'static void F%d(bool b, B.Imp:S i) {\n' + (block + loop) * 8 + '}\n'
    return contract + 'class K {\n' + ''.join(one % k for k in range(max(1, n // 8))) + '}\n'


def short_statements(n):
    """n statements that read a field."""
    return in_method('int k;\n' + 'k=p.n;' * n)


def unknown_names(n):
    """n uses of an undeclared name."""
    return in_method('x = b;\n' * n)


def variables_twice(n):
    """One variable declared n times."""
    return in_method('int k;\n' * n)


def variables(n):
    """n scalars, each read by the next one."""
    return in_method(''.join('int v%d = %s;\n' % (k, 'v%d' % (k - 1) if k else '0') for k in range(n)))


def cases(n):
    """One switch with a case for each of n messages."""
    contract = 'contract C { ' + ''.join('out message M%d();' % k for k in range(n)) + 'state S: ; }\n'
    listed = ''.join('case i.M%d(): break;\n' % k for k in range(n))
    return contract + 'class K { static void F(C.Imp:S i) { switch receive {\n' + listed + 'case i.ChannelClosed(): break; } } }\n'


def blocks_of_variables(n):
    """n blocks that each declare a variable, with 1,000 others in scope."""
    outer = ''.join('int v%d;\n' % k for k in range(1000))
    return in_method(outer + '{ int k; k = v999; }\n' * n)


def starts(n):
    """n starts of one method with n parameters."""
    parameters = ', '.join('int a%d' % k for k in range(n))
    return 'class K { static void G(' + parameters + ') { } static void F() {\n' + 'start G();\n' * n + '} }\n'


def reads(n):
    """n reads of a block, in methods that stay below the limit of pairs."""
    one = 'static void F%d(D* in ExHeap p) { int k;\n' + 'k = p.n;\n' * min(n, 10000) + '}\n'
    return 'rep struct D { int n; }\nclass K {\n' + ''.join(one % k for k in range(max(1, n // 10000))) + '}\n'


def small_methods(n):
    """At most 4,096 methods with a block each. In larger texts each method does more."""
    count = min(n, 4096)
    work = 'q.n = k; k = q.n + p.n; ' * max(1, n // 4096)
    one = 'static void M%d(D* in ExHeap p) { int k; D* in ExHeap q = new[ExHeap] D(); ' + work + 'delete q; }\n'
    return 'rep struct D { int n; }\nclass K {\n' + ''.join(one % k for k in range(count)) + '}\n'


def scalars(n):
    """n scalars, each assigned a second time."""
    return in_method_alone(''.join('int v%d = %d;\n' % (k, k) for k in range(n)) + ''.join('v%d = 1;\n' % k for k in range(n)))


def in_method_alone(statements):
    return 'class K { static void F() {\n' + statements + '} }\n'


def many_variables(n):
    """1,000 variables of the exchange heap that take and free a block in turn, n times in all, 9,000 times in each method."""
    declared = ''.join('D* in ExHeap v%d;\n' % k for k in range(1000))
    turns = ''.join('v%d = new[ExHeap] D(); delete v%d;\n' % (k % 1000, k % 1000) for k in range(min(n, 9000)))
    one = 'static void F%d() {\n' + declared + turns + '}\n'
    return 'rep struct D { int n; }\nclass K {\n' + ''.join(one % k for k in range(max(1, n // 9000))) + '}\n'


def long_types(n):
    """n calls of a method whose parameter and result have a type with a name of n bytes."""
    name = 'D' * n
    method = 'static %s* in ExHeap G(%s* in ExHeap p) { }' % (name, name)
    return 'rep struct %s { int n; } class K { %s static void F() {\n' % (name, method) + 'G();\n' * n + '} }\n'


def in_small_methods(statement, n, most):
    """Returns methods with n of these statements in all, `most` in each method."""
    one = 'static void F%d(bool b, D* in ExHeap p) { int k;\n' + statement * min(n, most) + '}\n'
    return 'rep struct D { int n; }\nclass K {\n' + ''.join(one % k for k in range(max(1, n // most))) + '}\n'


def ways(n):
    """n conditions with two branches each."""
    return in_small_methods('if (b) { k = p.n; } else { p.n = k; }\n', n, 2000)


def loops(n):
    """n loops with a block that each round makes, and frees at its end or before a `break`."""
    return in_small_methods('while (b) { D* in ExHeap q = new[ExHeap] D(); if (b) { delete q; break; } delete q; }\n', n, 200)


def returns(n):
    """n returns, each on a branch of its own, with 1,000 variables in scope."""
    declared = ''.join('D* in ExHeap v%d;\n' % k for k in range(1000))
    one = 'static void F%d(bool b) {\n' + declared + 'if (b) { return; }\n' * min(n, 5000) + '}\n'
    return 'rep struct D { int n; }\nclass K {\n' + ''.join(one % k for k in range(max(1, n // 5000))) + '}\n'


def name_of(k):
    """Returns a short name for each number."""
    signs = 'abcdefghijklmnopqrstuvwxyz0123456789ABCDEFGHIJKLMNOPQRSTUVWXYZ'
    name = ''
    while True:
        k, sign = divmod(k, len(signs))
        name += signs[sign]
        if not k:
            return 'M' + name


def messages_with_cases(n):
    """n messages that can arrive in one state, and a switch with a case for each."""
    names = list(map(name_of, range(n)))
    contract = 'contract B {' + ''.join('in message %s();' % it for it in names)
    states = 'state S:one{' + ''.join('%s?->E;' % it for it in names) + '}state E:;}\n'
    cases = ''.join('case e.%s():break;' % it for it in names) + 'case e.ChannelClosed():break;'
    return contract + states + 'class K { static void F([Claims] B.Exp:S e) { switch receive {' + cases + '} delete e; } }'


def sends(n):
    """n sends, 19,000 in each method on its endpoint."""
    contract = 'contract B { out message A(); state S: ' + 'A!->' * min(n, 19000) + 'T; state T: ; }\n'
    one = 'static void F%d([Claims] B.Exp:S e) {' + 'e.SendA();' * min(n, 19000) + 'delete e; }\n'
    return contract + 'class K {' + ''.join(one % k for k in range(max(1, n // 19000))) + '}'


def endpoints_in_a_switch(n):
    """Switches over 1,000 endpoints, n in all: a case for each close, and a case for a message at half of the endpoints.
    Each method has one finding, since it frees none of them."""
    each = min(n, 1000) // 2
    contract = 'contract B { out message A(); state S: A!->T; state T: ; }\n'
    made = ''.join('B.Imp i%d;B.Exp e%d;B.NewChannel(out i%d,out e%d);' % (k, k, k, k) for k in range(each))
    one = 'case i%d.A():break;case i%d.ChannelClosed():break;case e%d.ChannelClosed():break;'
    cases = ''.join(one % (k, k, k) for k in range(each))
    body = made + 'switch receive {' + cases + '}'
    return contract + 'class K {' + ''.join('static void F%d() {' % k + body + '}\n' for k in range(max(1, n // 1000))) + '}'


def calls_with_endpoints(n):
    """n calls of a method with 8 endpoints as parameters, 4,096 in each method."""
    contract = 'contract B { out message A(); state S: A!->T; state T: ; }\n'
    head = ','.join('B.Imp:S p%d' % k for k in range(8))
    one = 'static void F%d(' + head + ') {' + 'G(p0,p1,p2,p3,p4,p5,p6,p7);\n' * min(n, 4096) + '}\n'
    return contract + 'class K { static void G(' + head + ') { }\n' + ''.join(one % k for k in range(max(1, n // 4096))) + '}'


def contracts_of_1900_states(n):
    """At most 256 contracts of 1,900 states, with n states in all."""
    one = 'contract C%d { in message A(); out message B(); state S: ' + 'A?->B!->' * 950 + 'S; }\n'
    return ''.join(one % k for k in range(max(1, min(n // 1900, 256))))


def many_rows(n):
    """Methods that move each of ten blocks on one branch of an `if`: 3,070 pairs in each method, about 96 for each of n."""
    head = ''.join(',[Claims]D* in ExHeap p%d' % k for k in range(10))
    ways = ''.join('D* in ExHeap q%d;if(b){q%d=p%d;}' % (k, k, k) for k in range(10))
    one = 'static void F%d(bool b' + head + '){' + ways + 'while(true){}}\n'
    return 'rep struct D { int n; }\nclass K {\n' + ''.join(one % k for k in range(max(1, n // 32))) + '}\n'


def many_blocks(n, begin, end):
    """Returns methods with a claimed block, and eleven others, each made on one branch of an `if`: 2,048 rows at the end."""
    names = 'acdefghijkl'
    ways = ''.join('D*in ExHeap %s;' % it for it in names) + ''.join('if(b){%s=new[ExHeap]D();}' % it for it in names)
    one = 'static void F%d(bool b,[Claims]D*in ExHeap z){' + begin + ways + end + '}\n'
    return 'rep struct D{int n;}class K{\n' + ''.join(one % k for k in range(max(1, n // 128))) + '}\n'


def fail_at_one_place(n):
    """In each method 2,048 rows use a freed block at the same place: 6,143 pairs and one finding."""
    return many_blocks(n, 'delete z;', 'z.n=1;while(true){}')


def pass_at_one_place(n):
    """As many pairs without a finding: a use takes the place of the delete."""
    return many_blocks(n, 'z.n=1;', 'while(true){}')


def fail_at_many_places(n):
    """In each method 2,048 rows leave some of eleven blocks at each of four ends: 18,431 pairs and 44 findings."""
    return many_blocks(n, 'delete z;', 'if(b){return;}' * 3)


def pass_at_many_places(n):
    """As many pairs without a finding: an endless loop takes the place of each end."""
    return many_blocks(n, 'delete z;', 'if(b){while(true){}}' * 3 + 'while(true){}')


def one_block(n, end):
    """Returns methods with a block and 5,000 of these ends each, n ends in all."""
    one = 'static void F%d(bool b){D*in ExHeap z=new[ExHeap]D();' + ('if(b){' + end + '}') * min(n, 5000) + 'while(true){}}\n'
    return 'rep struct D{int n;}class K{\n' + ''.join(one % k for k in range(max(1, n // 5000))) + '}\n'


def fail_at_a_place_each(n):
    """n returns that leave a block, each with its own place, its own row and its own finding."""
    return one_block(n, 'return;')


def pass_at_a_place_each(n):
    """As many pairs without a finding: an endless loop takes the place of each return."""
    return one_block(n, 'while(true){}')


def eight_fields(names):
    """Returns owning fields with these names."""
    return ''.join('D* in ExHeap %s; ' % name for name in names)


def news_with_eight_arguments(n):
    """n new blocks with eight others inside, each freed and made anew, 800 in each method."""
    names = ['p%d' % k for k in range(8)]
    filled = 's = new[ExHeap] S(%s); delete s;\n' % ', '.join(names) + ''.join('%s = new[ExHeap] D(); ' % name for name in names) + '\n'
    head = ', '.join('[Claims] D* in ExHeap %s' % name for name in names)
    one = 'static void F%d(' + head + ') { S* in ExHeap s;\n' + filled * min(n, 800) + 'while (true) { } }\n'
    return 'rep struct D { int n; }\nrep struct S { %s}\nclass K {\n' % eight_fields('abcdefgh') + ''.join(
        one % k for k in range(max(1, n // 800))) + '}\n'


def exchanges(n):
    """n exchanges with the last of eight fields, in a loop, 16,000 in each method."""
    one = 'static void F%d(bool b, S* in ExHeap s, [Claims] D* in ExHeap p) { while (b) {\n' + 'exchange(s.h, p);\n' * min(
        n, 16000) + '} delete p; }\n'
    return 'rep struct D { int n; }\nrep struct S { %s}\nclass K {\n' % eight_fields('abcdefgh') + ''.join(
        one % k for k in range(max(1, n // 16000))) + '}\n'


def struct_of_many_fields(n):
    """A struct of n scalar fields and an owning one, with n new blocks of it and n exchanges, 4,000 in each method."""
    fields = ''.join('int f%d; ' % k for k in range(n)) + 'D* in ExHeap last;'
    turn = 's = new[ExHeap] S(p); p = new[ExHeap] D(); exchange(s.last, p); delete s;\n'
    one = 'static void F%d([Claims] D* in ExHeap p) { S* in ExHeap s;\n' + turn * min(n, 4000) + 'delete p; }\n'
    return 'rep struct D { int n; }\nrep struct S { %s }\nclass K {\n' % fields + ''.join(one % k for k in range(max(1, n // 4000))) + '}\n'


def structs_of_eight_fields(n):
    """At most 4,096 methods, each with a struct of eight owning fields, with n exchanges in all."""
    count = min(n, 4096)
    struct = 'rep struct S%d { ' + eight_fields('abcdefgh') + '}\n'
    work = ''.join('exchange(s.%s, p); ' % 'abcdefgh'[k % 8] for k in range(max(1, n // 4096)))
    one = 'static void M%d(S%d* in ExHeap s, [Claims] D* in ExHeap p) { ' + work + 'delete p; }\n'
    return 'rep struct D { int n; }\n' + ''.join(struct % k for k in range(count)) + 'class K {\n' + ''.join(
        one % (k, k) for k in range(count)) + '}\n'


LOADS = [path, ring, named_states, messages, contracts_256, comment, line_comments, short_comments, declared_twice, long_names,
         statements, short_statements, else_ifs, long_sum, deep_parentheses, deep_blocks, methods, expressions, turns,
         unknown_names, variables_twice, variables, cases, blocks_of_variables, starts, long_types]
CHECKED = [reads, small_methods, scalars, many_variables, ways, loops, returns,
           messages_with_cases, sends, endpoints_in_a_switch, calls_with_endpoints, contracts_of_1900_states, many_rows,
           fail_at_one_place, pass_at_one_place, fail_at_many_places, pass_at_many_places, fail_at_a_place_each, pass_at_a_place_each,
           news_with_eight_arguments, exchanges, struct_of_many_fields, structs_of_eight_fields]
