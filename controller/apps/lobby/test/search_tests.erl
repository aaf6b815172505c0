%% Tests the search in small worlds whose states can be counted by hand.
-module(search_tests).

-include_lib("eunit/include/eunit.hrl").

%% A puzzle with jugs of five and three litres. Measuring four litres takes six steps.
jugs(Broken) ->
    #{start => {0, 0},
      events => fun(_) -> [{Do, Which} || Do <- [fill, empty, pour], Which <- [big, small]] end,
      step => fun jug/2, broken => Broken}.

jug({fill, big}, {_, Small}) -> {5, Small};
jug({fill, small}, {Big, _}) -> {Big, 3};
jug({empty, big}, {_, Small}) -> {0, Small};
jug({empty, small}, {Big, _}) -> {Big, 0};
jug({pour, big}, {Big, Small}) -> Poured = min(Big, 3 - Small), {Big - Poured, Small + Poured};
jug({pour, small}, {Big, Small}) -> Poured = min(Small, 5 - Big), {Big + Poured, Small - Poured}.

four({4, _}) -> [{four, litres}];
four(_) -> [].

nothing(_) -> [].

%% This world has three counters up to two.
counters(More) ->
    maps:merge(#{start => {0, 0, 0}, broken => fun nothing/1,
                 events => fun(State) -> [{up, N} || N <- [1, 2, 3], element(N, State) < 2] end,
                 step => fun({up, N}, State) -> setelement(N, State, element(N, State) + 1) end}, More).

last(#{levels := Levels}) -> lists:last(Levels).

the_shortest_way_test() ->
    #{limit := broken, found := [#{broken := Broken, way := Way}]} = search:breadth(jugs(fun four/1), #{}),
    ?assertEqual({four, litres}, Broken),
    ?assertEqual(6, length(Way)),
    ?assertMatch({4, _}, lists:foldl(fun jug/2, {0, 0}, Way)).

%% One of the jugs is always empty or full: 4 + 4 + 6 + 6 states, of which four are counted twice.
all_states_test() ->
    Result = search:breadth(jugs(fun nothing/1), #{}),
    ?assertMatch(#{limit := none, found := []}, Result),
    ?assertMatch({_, 16, 96, _}, last(Result)).

what_is_alike_is_seen_once_test() ->
    ?assertMatch({_, 27, 54, _}, last(search:breadth(counters(#{}), #{}))),
    Alike = #{canonical => fun(State) -> lists:sort(tuple_to_list(State)) end},
    ?assertMatch({_, 10, _, _}, last(search:breadth(counters(Alike), #{}))),
    %% The way can be replayed, even if names were exchanged.
    End = Alike#{broken => fun({2, 2, 1}) -> [there]; ({2, 1, 2}) -> [there]; ({1, 2, 2}) -> [there]; (_) -> [] end},
    #{found := [#{way := Way}]} = search:breadth(counters(End), #{}),
    ?assertEqual({Way, [there]}, search:replay(Way, counters(End))),
    ?assertEqual(5, length(Way)).

limits_test() ->
    ?assertMatch(#{limit := depth, levels := [{0, 1, 0, _}, {1, 4, 3, _}, {2, 10, 12, _}]},
                 search:breadth(counters(#{}), #{depth => 2})),
    ?assertMatch(#{limit := states, levels := [_, _, {2, 10, _, _}]}, search:breadth(counters(#{}), #{states => 5})),
    Slow = #{step => fun({up, N}, State) -> timer:sleep(5), setelement(N, State, element(N, State) + 1) end},
    ?assertMatch(#{limit := time, levels := [_, _]}, search:breadth(counters(Slow), #{time => 10})),
    %% A search that sees all states isn't ended by a limit.
    ?assertMatch(#{limit := none}, search:breadth(counters(#{}), #{depth => 7, states => 28, time => 60000})).

workers_change_nothing_test() ->
    Untimed = fun(Result = #{levels := Levels}) ->
        Result#{levels := [{Depth, States, Steps} || {Depth, States, Steps, _} <- Levels]}
    end,
    [?assertEqual(Untimed(search:breadth(Model, #{})), Untimed(search:breadth(Model, #{workers => Workers})))
     || Model <- [jugs(fun four/1), jugs(fun nothing/1), counters(#{})], Workers <- [2, 3, 100]].

a_start_can_be_broken_test() ->
    ?assertMatch(#{found := [#{way := [], broken := start}]},
                 search:breadth(counters(#{broken => fun(_) -> [start] end}), #{})).

%% The search continues after the first broken promise, and reports each kind once.
all_kinds_are_found_test() ->
    Broken = fun({1, 0, 0}) -> [{first, 1}]; ({0, 2, 0}) -> [{second, 2}]; ({0, 0, 2}) -> [{second, 3}]; (_) -> [] end,
    ?assertMatch(#{limit := broken, found := [#{broken := {first, 1}, way := [{up, 1}]}]},
                 search:breadth(counters(#{broken => Broken}), #{})),
    Result = #{found := Found} = search:breadth(counters(#{broken => Broken}), #{all => true}),
    ?assertMatch([#{broken := {first, 1}}, #{broken := {second, 2}, way := [{up, 2}, {up, 2}]}], Found),
    ?assertMatch(#{limit := none}, Result).

%% States after a broken promise aren't visited: there are nine states with the first counter at zero, and nine at one.
behind_a_broken_promise_nothing_is_seen_test() ->
    Broken = fun({First, _, _}) -> [{first, First} || First > 0] end,
    ?assertMatch({_, 18, _, _}, last(search:breadth(counters(#{broken => Broken}), #{all => true}))).

%% The final check applies to states without possible events.
the_end_is_looked_at_test() ->
    Final = #{final => fun(State) -> [{ended, State}] end},
    ?assertMatch(#{found := [#{broken := {ended, {2, 2, 2}}, way := [_, _, _, _, _, _]}]},
                 search:breadth(counters(Final), #{})),
    Walk = #{seed => 1, runs => 1, length => 3},
    ?assertMatch(#{found := [#{broken := {ended, _}}]}, search:random(counters(Final), Walk)).

a_crash_is_a_broken_promise_test() ->
    Crashes = #{step => fun({up, N}, State) ->
        true = State =/= {1, 1, 0},
        setelement(N, State, element(N, State) + 1)
    end},
    #{found := [#{broken := Broken, way := Way}]} = search:breadth(counters(Crashes), #{}),
    ?assertMatch({{crashed, {error, {badmatch, false}}, {?MODULE, _, _, _}}, 3}, {Broken, length(Way)}),
    ?assertMatch({Way, [{crashed, _, _}]}, search:replay(Way, counters(Crashes))),
    Walks = #{seed => 1, runs => 100, length => 6},
    #{found := [#{broken := Again, way := Random}]} = search:random(counters(Crashes), Walks),
    ?assertMatch({{crashed, _, _}, 3}, {Again, length(Random)}).

%%% Random walks.

%% The last three digits open the lock, whatever comes before them.
lock() ->
    #{start => [], events => fun(_) -> [1, 2, 3, 4] end, step => fun(Digit, Before) -> [Digit | Before] end,
      broken => fun([3, 4, 2 | Before]) -> [{open, length(Before)}]; (_) -> [] end}.

walks_are_shrunk_test() ->
    Walks = #{seed => 7, runs => 1000, length => 50},
    #{limit := broken, found := [Found = #{seed := Seed}]} = search:random(lock(), Walks),
    ?assertMatch(#{broken := {open, 0}, way := [2, 4, 3]}, Found),
    %% The reported seed repeats the walk.
    Again = search:random(lock(), Walks#{seed := Seed, runs := 1}),
    ?assertMatch(#{walks := {0, 0, _}, found := [Found]}, Again).

every_walk_is_shrunk_test() ->
    Ways = [Way || Seed <- lists:seq(1, 50),
                   #{found := [#{way := Way}]} <- [search:random(lock(), #{seed => Seed, runs => 100, length => 200})]],
    ?assertEqual(lists:duplicate(50, [2, 4, 3]), Ways).

walks_end_test() ->
    Walks = fun(More) -> search:random(counters(#{}), maps:merge(#{seed => 1, runs => 10, length => 4}, More)) end,
    ?assertMatch(#{limit := none, found := [], walks := {10, 40, _}}, Walks(#{})),
    ?assertMatch(#{limit := none, found := [], walks := {10, 60, _}}, Walks(#{length => 9})),
    ?assertMatch(#{limit := time, walks := {0, 0, _}}, Walks(#{time => 0})).

%% Each of the three counters is the first to reach two in some walk.
walks_differ_test() ->
    ?assertEqual([{first, 1}, {first, 2}, {first, 3}], lists:usort([first_of(Seed) || Seed <- lists:seq(1, 100)])).

first_of(Seed) ->
    Broken = fun(State) -> [{first, N} || N <- [1, 2, 3], element(N, State) =:= 2] end,
    Result = search:random(counters(#{broken => Broken}), #{seed => Seed, runs => 1, length => 9}),
    #{found := [#{broken := Found}]} = Result,
    Found.

what_is_not_possible_is_left_out_test() ->
    ?assertEqual({[{up, 1}, {up, 1}, {up, 2}], []},
                 search:replay([{up, 1}, {up, 1}, {up, 1}, {up, 9}, {up, 2}], counters(#{}))),
    %% Events after a broken promise are skipped, too.
    ?assertEqual({[2, 4, 3], [{open, 0}]}, search:replay([2, 4, 3, 1], lock())).

text_test() ->
    Text = search:format(search:breadth(jugs(fun four/1), #{})),
    ?assertMatch({match, _}, re:run(Text, "^0 events: 1 states, 0 steps, ")),
    ?assertMatch({match, _}, re:run(Text, "\nEnded by: broken\n{four,litres}\n    {fill,big}\n")),
    Walks = search:random(lock(), #{seed => 7, runs => 1000, length => 50}),
    ?assertMatch({match, _}, re:run(search:format(Walks), "{open,0} \\(seed [0-9]+\\)\n    2\n    4\n    3\n$")),
    ?assertMatch({match, _}, re:run(search:format(search:breadth(counters(#{}), #{})), "This is all")).
