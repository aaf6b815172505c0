%% Searches all sequences of events in small worlds of people, rooms and proved gateways. No limit ends these searches,
%% so if a search finds nothing, no sequence of events in its world breaks a promise.
-module(lobby_search_tests).

-include_lib("eunit/include/eunit.hrl").

-define(TOGETHER, [{ann, <<"1">>}, {bob, <<"1">>}]).
-define(APART, [{ann, <<"1">>}, {bob, <<"2">>}]).
-define(ANNS, [{move, {ann, 1}, <<"2">>}, {isolate, {ann, 1}}]).

%% The default options of a world.
-define(WORLD, #{people => #{ann => <<"member">>, bob => <<"member">>}, rooms => [<<"1">>, <<"2">>],
                 joined => ?TOGETHER, rules => [], seats => #{a => 10}, faults => {0, []}}).

searched(World) -> searched(World, []).

%% Searches a world, beginning after these events.
searched(World, Way) ->
    {timeout, 600, fun() ->
        Model = #{start := Start, step := Step} = lobby_world:model(maps:merge(?WORLD, World)),
        nothing_is_broken(search:breadth(Model#{start := lists:foldl(Step, Start, Way)}, limits()))
    end}.

limits() -> #{workers => min(3, erlang:system_info(schedulers_online))}.

nothing_is_broken(Result = #{found := Found, limit := Limit}) ->
    Found =:= [] orelse io:format("~s", [search:format(Result)]),
    ?assertEqual({none, []}, {Limit, [Broken || #{broken := Broken} <- Found]}).

changes_test_() ->
    searched(#{changes => {3, [mute, isolate, leave]}}).

leaving_test_() ->
    searched(#{rooms => [<<"1">>], changes => {3, [isolate, release, leave]}}).

moves_test_() ->
    searched(#{changes => {3, [move, isolate, release]}}).

a_process_is_killed_test_() ->
    searched(#{joined => ?APART, changes => {1, [move, isolate, release, mute, leave]},
               faults => {1, [kill_room, kill_person, kill_gateway]}}).

two_processes_are_killed_test_() ->
    searched(#{joined => ?APART, changes => {1, [move]}, faults => {2, [kill_room, kill_person]}}).

a_process_is_killed_between_changes_test_() ->
    searched(#{changes => {2, [move, isolate]}, faults => {1, [kill_room, kill_person]}}).

two_failures_for_a_newcomer_test_() ->
    searched(#{joined => [{bob, <<"1">>}], rooms => [<<"1">>], changes => {1, [join]},
               faults => {2, [kill_room, kill_person, kill_gateway, lose, late]}}).

%% Ann's new room is on another gateway, to which she is added as an active talker.
two_failures_for_who_moves_far_test_() ->
    searched(far({2, [kill_room, late]})).

a_gateways_process_is_killed_when_somebody_moves_far_test_() ->
    searched(far({2, [kill_gateway, late]})).

far(Faults) ->
    #{joined => ?APART, seats => #{a => 10, b => 10}, changes => {1, [{move, {ann, 1}, <<"2">>}]}, faults => Faults}.

two_failures_in_a_room_test_() ->
    searched(#{rooms => [<<"1">>], changes => {1, [isolate, leave]}, faults => {2, [kill_room, kill_gateway, lose]}}).

a_datagram_test_() ->
    searched(#{joined => ?APART, changes => {1, [move, isolate, leave]}, faults => {1, [lose, double, late]}}).

%% A copy of the request that creates the context may arrive after its reply.
a_datagram_to_a_new_room_test_() ->
    searched(#{joined => [], rooms => [<<"1">>], changes => {1, [join]}, faults => {2, [lose, double, late]}}).

two_datagrams_test_() ->
    searched(#{joined => ?APART, changes => {1, [move]}, faults => {2, [lose, double, late, kill_room]}}).

%% The answer may be in flight when the room asks again.
an_impatient_room_test_() ->
    searched(#{joined => [], rooms => [<<"1">>], changes => {2, [join]}, faults => {1, [early]}}).

an_impatient_room_changes_test_() ->
    searched(#{rooms => [<<"1">>], changes => {3, [{mute, {ann, 1}}, {unmute, {ann, 1}}]}, faults => {2, [early, lose]}}).

an_impatient_member_moves_test_() ->
    searched(#{joined => ?APART, changes => {1, [move]}, faults => {2, [early]}}).

few_seats_test_() ->
    searched(#{seats => #{a => 3, b => 3}, changes => {1, [isolate, move, leave]},
               faults => {1, [lose_gateway, begin_anew, lose]}}).

a_gateway_is_drained_test_() ->
    searched(#{joined => ?APART, seats => #{a => 10, b => 10}, changes => {2, [drain, isolate, move]}}).

one_that_is_drained_fails_test_() ->
    searched(#{rooms => [<<"1">>], seats => #{a => 10, b => 10}, changes => {1, [{drain, a, true}]},
               faults => {1, [kill_room, kill_person, kill_gateway, lose, late, lose_gateway, begin_anew]}}).

what_drains_a_gateway_fails_test_() ->
    searched(#{rooms => [<<"1">>], seats => #{a => 10, b => 10}, changes => {2, [drain]}, faults => {1, [kill_gateway]}}).

%% An agent is in the room, and the coach and the customer join.
coaching_test_() ->
    searched(#{people => #{ann => <<"coach">>, bob => <<"customer">>, cay => <<"agent">>}, rooms => [<<"1">>],
               rules => lobby_rules:preset(coaching), joined => [{cay, <<"1">>}], changes => {2, [join]},
               faults => {1, [kill_room, lose]}}).

a_race_test_() ->
    searched(#{joined => ?APART, races => 1, changes => {2, [isolate, move]}}).

two_races_test_() ->
    searched(#{joined => ?APART, races => 2, changes => {2, [isolate, move]}}).

a_race_and_a_failure_test_() ->
    searched(#{joined => ?APART, races => 1, changes => {1, [isolate, move]},
               faults => {1, [kill_room, kill_person]}}).

%% A person who calls again has a new id, and the previous call may have left terminations behind.
calling_again_test_() ->
    searched(#{rooms => [<<"1">>], changes => {3, [leave, join]}}).

a_gateway_resumes_test_() ->
    searched(#{journal => true, joined => ?APART, changes => {1, [move, isolate, leave]}, faults => {1, [lose_gateway]}}).

a_gateway_resumes_with_a_newcomer_test_() ->
    searched(#{journal => true, joined => [{bob, <<"1">>}], rooms => [<<"1">>], changes => {1, [join]},
               faults => {1, [lose_gateway]}}).

a_gateway_begins_anew_test_() ->
    searched(#{joined => [], rooms => [<<"1">>], changes => {2, [join]}, faults => {1, [begin_anew]}}).

%% The other node takes over with its copy of the store, while datagrams may still arrive. After a cut, the copy lacks
%% more and more changes.
the_other_node_takes_over_test_() ->
    searched(#{pair => true, joined => ?APART, changes => {1, [move, isolate, leave]}, faults => {1, [take_over, cut]}}).

the_other_node_takes_over_a_newcomer_test_() ->
    searched(#{pair => true, joined => [{bob, <<"1">>}], rooms => [<<"1">>], changes => {1, [join]},
               faults => {1, [take_over, cut]}}).

%% After a cut, a context is created only once the other node can't take over any more.
the_other_node_takes_over_a_new_room_test_() ->
    searched(new_room({1, [take_over, cut]})).

a_gateways_process_is_killed_for_a_new_room_test_() ->
    searched(new_room({2, [kill_gateway]}), [{fault, cut}]).

a_gateway_resumes_for_a_new_room_test_() ->
    searched((new_room({2, [lose_gateway]}))#{journal => true}, [{fault, cut}]).

new_room(Faults) ->
    #{pair => true, people => #{ann => <<"member">>}, joined => [], rooms => [<<"1">>], changes => {1, [join]}, faults => Faults}.

%% A newcomer whom the other node doesn't know is added to the context, and then the only other member leaves.
the_other_node_takes_over_a_room_that_ends_test_() ->
    searched(#{pair => true, joined => [{bob, <<"1">>}], rooms => [<<"1">>], changes => {2, [join, {leave, {bob, 1}}]},
               faults => {1, []}}, [{fault, cut}]).

%% Bob's process and his new room haven't learned that his old room released him, and he is back in that room.
the_other_node_takes_over_who_comes_back_test_() ->
    searched(back(#{pair => true, faults => {1, [take_over]}})).

a_process_is_killed_for_who_comes_back_test_() ->
    searched(back(#{faults => {1, [kill_gateway, kill_room, kill_person]}})).

back(World) ->
    World#{joined => [{bob, <<"1">>}], changes => {2, [{move, {bob, 1}, <<"2">>}, {move, {bob, 1}, <<"1">>}]}}.
%% Datagrams of an earlier run may arrive at any later time, repeatedly, but the gateway has a fence.
a_gateways_process_is_killed_behind_a_fence_test_() ->
    searched(#{fence => true, joined => ?APART, changes => {1, ?ANNS}, faults => {2, [kill_gateway, late]}}).

a_gateway_resumes_behind_a_fence_test_() ->
    searched(#{fence => true, journal => true, people => #{bob => <<"member">>}, joined => [{bob, <<"1">>}], rooms => [<<"1">>],
               changes => {1, [mute]}, faults => {2, [kill_gateway]}}, [{fault, {'end', a}}]).

the_other_node_takes_over_behind_a_fence_test_() ->
    searched(#{fence => true, pair => true, joined => ?APART, changes => {1, ?ANNS}, faults => {2, [take_over, late]}}).

%% The gateway's process is killed while it adds Ann. The other node doesn't know the reply that the next process
%% received, and repeats a request that the fence drops. In the end, the gateway serves.
what_is_repeated_in_vain_test_() ->
    {timeout, 60, fun what_is_repeated_in_vain/0}.

what_is_repeated_in_vain() ->
    Model = #{start := Start, step := Step, final := Final} = lobby_world:model(?WORLD#{
        fence => true, pair => true, joined := [{bob, <<"1">>}], rooms := [<<"1">>], changes => {1, [join]},
        faults := {2, [kill_gateway, cut]}}),
    IsSent = fun(Events) ->
        lists:member({deliver, {gateway, a}, {net, a}}, Events) andalso not lists:member({deliver, {gateway, a}, {gateway, a}}, Events)
    end,
    Sent = delivered(IsSent, Step({change, {join, {ann, 1}, <<"1">>}}, Start), Model),
    Again = delivered(IsSent, Step({fault, {kill, {gateway, a}}}, Sent), Model),
    Cut = Step({fault, cut}, Again),
    IsOver = fun(Events) -> rests(Events) andalso [Event || Event = {timer, _} <- Events] =:= [] end,
    TakenOver = Step(take_over, delivered(fun rests/1, Cut, Model)),
    ?assertEqual([], Final(delivered(IsOver, TakenOver, Model))).

the_other_node_takes_over_a_newcomer_behind_a_fence_test_() ->
    searched(#{fence => true, pair => true, joined => [{bob, <<"1">>}], rooms => [<<"1">>], changes => {1, [join]},
               faults => {2, [take_over, kill_gateway]}}).

%% Ann was isolated. A node that is cut off releases her, and the other node takes over and isolates her again.
a_node_was_cut_off_behind_a_fence_test_() ->
    {timeout, 600, fun() -> nothing_is_broken(released_by_a_node_that_is_cut_off(true)) end}.

what_a_fence_is_for_test_() ->
    {timeout, 600, fun() ->
        #{found := [#{broken := Broken}]} = released_by_a_node_that_is_cut_off(ignored),
        ?assertEqual({isolated, {{ann, 1}, {bob, 1}}}, Broken)
    end}.

released_by_a_node_that_is_cut_off(Fence) ->
    Ann = {ann, 1},
    Model = #{start := Start, step := Step} = lobby_world:model(?WORLD#{
        fence => Fence, pair => true, rooms := [<<"1">>], changes => {3, [{isolate, Ann}, {release, Ann}]},
        faults := {1, [cut]}}),
    Isolated = delivered(fun rests/1, Step({change, {isolate, Ann}}, Start), Model),
    search:breadth(Model#{start := Isolated}, limits()).

%% A fence passes requests of an earlier run until the gateway has run a message of the next run. Until then, a request
%% whose reply was acknowledged may be run again, as within one run: here, the request that let Ann talk.
what_a_fence_is_not_for_test() ->
    Ann = {ann, 1}, Room = {room, <<"1">>},
    Way = [{timer, {gateway, a, transactions}}, {deliver, {gateway, a}, {net, a}}, {change, {mute, Ann}},
           {deliver, {person, Ann}, Room}, {deliver, Room, {gateway, a}}, {deliver, {gateway, a}, {net, a}},
           {deliver, {net, a}, {gateway, a}}, {deliver, {gateway, a}, Room}, {deliver, Room, {person, Ann}},
           {fault, {kill, {gateway, a}}}, {arrive, 4}],
    World = fun(Fence) ->
        lobby_world:model(?WORLD#{fence => Fence, rooms := [<<"1">>], changes => {1, [mute]}, faults := {1, [kill_gateway]}})
    end,
    ?assertEqual({Way, [{muted, {Ann, {bob, 1}}}]}, search:replay(Way, World(whenever))),
    ?assertEqual({lists:droplast(Way), []}, search:replay(Way, World(true))).

%% Carries out the first possible event repeatedly, until the possible events satisfy a condition.
delivered(Until, World, Model) -> delivered(Until, World, Model, 1000).

delivered(Until, World, Model = #{events := Events, step := Step}, Left) when Left > 0 ->
    Possible = Events(World),
    case Until(Possible) of
        true -> World;
        false -> delivered(Until, Step(hd(Possible), World), Model, Left - 1)
    end.

rests(Events) -> [Event || Event = {deliver, _, _} <- Events] =:= [].

a_door_test_() ->
    searched(#{people => #{ann => <<"coach">>, bob => <<"customer">>}, rooms => [<<"1">>], joined => [{bob, <<"1">>}],
               door => true, rules => lobby_rules:preset(coaching), changes => {2, [join, let_in]},
               faults => {1, [kill_room, kill_person, lose]}}).

rules_change_test_() ->
    searched(#{people => #{ann => <<"coach">>, bob => <<"customer">>}, rooms => [<<"1">>],
               rulesets => [[], lobby_rules:preset(coaching)], changes => {2, [rules, isolate, release]}, faults => {1, [kill_room, lose]}}).

rules_and_roles_change_test_() ->
    searched(#{people => #{ann => <<"agent">>, bob => <<"customer">>}, rooms => [<<"1">>],
               roles => [<<"coach">>, <<"agent">>], rulesets => [[], lobby_rules:preset(coaching)],
               changes => {3, [rules, role]}, races => 1}).

rules_about_members_test_() ->
    searched(#{rooms => [<<"1">>], rulesets => [[]], changes => {3, [rules, oneway, leave]}}).

%% Three people in two rooms, and two gateways with two seats each.
few_seats_for_three_test_() ->
    searched(#{people => #{ann => <<"coach">>, bob => <<"customer">>, cay => <<"agent">>},
               joined => [{ann, <<"1">>}, {cay, <<"1">>}, {bob, <<"2">>}], rules => lobby_rules:preset(coaching),
               seats => #{a => 3, b => 3}, changes => {1, [move, isolate, leave]}, faults => {1, [lose_gateway, begin_anew]}}).

%% When a request that adds a member is repeated, the member may already have been released and be back.
who_comes_back_test() ->
    Ann = {ann, 1}, Bob = {bob, 1}, Cay = {cay, 1},
    Way = [{fault, {kill, {room, <<"1">>}}}, {fault, {anew, a}}, {change, {move, Cay, <<"2">>}}, {change, {move, Cay, <<"1">>}},
           {change, {mute, Bob}}, {change, {move, Ann, <<"2">>}}, {change, {move, Ann, <<"1">>}}, {change, {move, Bob, <<"1">>}},
           {race, {deliver, {person, Bob}, {room, <<"2">>}}}],
    World = #{people => #{ann => <<"coach">>, bob => <<"customer">>, cay => <<"agent">>}, rooms => [<<"1">>, <<"2">>],
              joined => [{ann, <<"1">>}, {cay, <<"1">>}, {bob, <<"2">>}], rules => lobby_rules:preset(coaching),
              seats => #{a => 5, b => 5}, changes => {length(Way), [move, mute]}, faults => {2, [kill_room, begin_anew]}, races => 1},
    ?assertEqual({Way, []}, search:replay(Way, lobby_world:model(World))).
