%% Tests the transactions with a model of the gateway's kept replies, over a network that loses, delays, duplicates and
%% reorders datagrams. Whatever the network does within the quiet time, no request is run twice, and each request is
%% answered at most once.
-module(lobby_transactions_tests).

-include_lib("eunit/include/eunit.hrl").
-include("properties.hrl").

-export([prop_no_request_is_run_twice/0]).

-define(OPTIONS, #{retry => 100, tries => 4, quiet => 5000}).
-define(ACTION, #{context => null, commands => [{audit, root, []}]}).

new() -> lobby_transactions:new({17, 2945}, 2, ?OPTIONS).

%%% The network has messages in flight to the gateway, and the numbers of replies in flight from the gateway, with the
%%% times when they were sent.
-record(net, {t = new(), now = 0, requests = [], replies = [], kept = [], runs = #{}, submitted = 0, answered = [], lost = false, held = false}).

do(_, Net = #net{lost = true}) -> Net;
do(away, Net = #net{t = T, now = Now, submitted = N, held = false}) ->
    %% While the gateway is awaited, only one request is retransmitted.
    effects(lobby_transactions:submit({forever, N}, ?ACTION, Now, lobby_transactions:pause(T)), Net#net{submitted = N + 1, held = true});
do(away, Net = #net{t = T, now = Now, held = true}) ->
    effects(lobby_transactions:resume(Now, T), Net#net{held = false});
do(submit, Net = #net{t = T, now = Now, submitted = N}) ->
    effects(lobby_transactions:submit({queued, N}, ?ACTION, Now, T), Net#net{submitted = N + 1});
do({advance, Ms}, Net = #net{now = Now}) ->
    advance(Now + Ms, Net);
do({deliver, I, Keep}, Net = #net{requests = Requests, now = Now}) ->
    case pick(I, Requests) of
        none -> Net;
        Picked = {Message, Sent} when Now - Sent < 4500 -> gateway(Message, left(Keep, Picked, Net));
        Picked -> Net#net{requests = Requests -- [Picked]}
    end;
do({answer, I, Keep}, Net = #net{replies = Replies, t = T, now = Now}) ->
    case pick(I, Replies) of
        none -> Net;
        Number ->
            Rest = case Keep of true -> Replies; false -> Replies -- [Number] end,
            effects(lobby_transactions:received(Number, {ok, [#{context => null, results => []}]}, Now, T), Net#net{replies = Rest})
    end;
do({lose, I}, Net = #net{requests = Requests}) ->
    case pick(I, Requests) of none -> Net; Picked -> Net#net{requests = Requests -- [Picked]} end.

left(true, _, Net) -> Net;
left(false, Picked, Net = #net{requests = Requests}) -> Net#net{requests = Requests -- [Picked]}.

pick(_, []) -> none;
pick(I, List) -> lists:nth(I rem length(List) + 1, List).

%% Lets time pass up to each deadline in turn, as a process with a timer does.
advance(To, Net = #net{t = T}) ->
    case lobby_transactions:deadline(T) of
        Deadline when Deadline =< To, not Net#net.lost ->
            Net1 = Net#net{now = max(Deadline, Net#net.now)},
            advance(To, effects(lobby_transactions:expired(Net1#net.now, T), Net1));
        _ -> Net#net{now = To}
    end.

effects({Effects, T}, Net) -> lists:foldl(fun effect/2, Net#net{t = T}, Effects).

effect({send, Message}, Net = #net{requests = Requests, now = Now}) -> Net#net{requests = Requests ++ [{Message, Now}]};
effect({'begin', _, _}, Net) -> Net;
effect({answer, _, From, _, _}, Net = #net{answered = Answered}) -> Net#net{answered = [From | Answered]};
effect(no_answer, Net) -> Net#net{lost = true}.

%% Acts like the gateway: sends a kept reply again, and keeps the last 32 replies until they are acknowledged.
gateway(Message, Net = #net{kept = Kept, runs = Runs, replies = Replies}) ->
    case re:run(Message, "T=(\\d+)", [{capture, all_but_first, list}]) of
        {match, [Text]} ->
            Number = list_to_integer(Text),
            case lists:member(Number, Kept) of
                true -> Net#net{replies = Replies ++ [Number]};
                false -> Net#net{replies = Replies ++ [Number], kept = lists:sublist([Number | Kept], 32),
                                 runs = maps:update_with(Number, fun(N) -> N + 1 end, 1, Runs)}
            end;
        nomatch ->
            {match, Numbers} = re:run(Message, "(?<=[{,])\\d+", [global, {capture, all, list}]),
            Net#net{kept = Kept -- [list_to_integer(N) || [N] <- Numbers]}
    end.

event() ->
    frequency([{6, submit}, {4, {advance, range(0, 120)}}, {1, {advance, range(3000, 6000)}},
               {8, {deliver, range(0, 50), boolean()}}, {8, {answer, range(0, 50), boolean()}}, {1, {lose, range(0, 50)}}, {1, away}]).

prop_no_request_is_run_twice() ->
    %% There are many events, because a reply is dropped only after 32 more requests.
    ?FORALL(Events, ?BIND(N, range(0, 400), vector(N, event())),
            begin
                Net = lists:foldl(fun do/2, #net{}, Events),
                lists:all(fun(N) -> N =:= 1 end, maps:values(Net#net.runs))
                    andalso length(lists:usort(Net#net.answered)) =:= length(Net#net.answered)
            end).

properties_test_() ->
    [?property(prop_no_request_is_run_twice, 500)].

sends({Effects, T}) -> {length([sent || {send, _} <- Effects]), T}.

a_request_is_repeated_and_then_given_up_test() ->
    {1, Table0} = sends(lobby_transactions:submit({queued, me}, ?ACTION, 0, new())),
    ?assertEqual(100, lobby_transactions:deadline(Table0)),
    {1, Table1} = sends(lobby_transactions:expired(100, Table0)),
    {1, Table2} = sends(lobby_transactions:expired(200, Table1)),
    {1, Table3} = sends(lobby_transactions:expired(300, Table2)),
    ?assertMatch({[no_answer], _}, lobby_transactions:expired(400, Table3)),
    ?assert(lobby_transactions:awaits(fun(From) -> From =:= me end, Table3)),
    {Sent, Table4} = lobby_transactions:abandon(Table3),
    ?assertEqual([{{17, 2945}, 2, ?ACTION}], Sent),
    ?assertNot(lobby_transactions:awaits(fun(From) -> From =:= me end, Table4)).

one_that_waits_forever_is_not_given_up_test() ->
    {1, Table0} = sends(lobby_transactions:submit({forever, me}, ?ACTION, 0, new())),
    lists:foldl(fun(N, T) -> {1, Table1} = sends(lobby_transactions:expired(100 * N, T)), Table1 end, Table0, lists:seq(1, 100)).

%% Sixteen requests are under way, and the next ones follow only once the oldest request is answered.
the_window_begins_at_the_oldest_test() ->
    T = lists:foldl(fun(N, Acc) -> element(2, lobby_transactions:submit({queued, N}, ?ACTION, 0, Acc)) end, new(), lists:seq(1, 20)),
    Reply = {error, 501},
    {Effects, Table1} = lobby_transactions:received(3, Reply, 1, T),
    ?assertEqual([{answer, 3, 2, ?ACTION, Reply}], Effects),
    {2, _} = sends(lobby_transactions:received(2, Reply, 1, Table1)).

%% A patient request is retransmitted at growing intervals, so that a lost gateway isn't flooded.
a_patient_request_is_repeated_more_and_more_seldom_test() ->
    {1, T} = sends(lobby_transactions:submit({patiently, me}, ?ACTION, 0, new())),
    Times = lists:foldl(fun(_, {Acc, [Before | _] = All}) ->
        {1, Next} = sends(lobby_transactions:expired(Before, Acc)),
        {Next, [lobby_transactions:deadline(Next) | All]}
    end, {T, [lobby_transactions:deadline(T)]}, lists:seq(1, 7)),
    ?assertEqual([100, 300, 700, 1500, 3100, 5100, 7100, 9100], lists:reverse(element(2, Times))).

a_reply_is_acknowledged_after_the_quiet_time_test() ->
    {1, Table0} = sends(lobby_transactions:submit({queued, me}, ?ACTION, 0, new())),
    {[{answer, 2, me, _, _}], Table1} = lobby_transactions:received(2, {error, 501}, 10, Table0),
    ?assertEqual(5010, lobby_transactions:deadline(Table1)),
    ?assertMatch({[], _}, lobby_transactions:expired(5009, Table1)),
    {[{send, Message}], Table2} = lobby_transactions:expired(5010, Table1),
    ?assertMatch({match, _}, re:run(Message, "K\\{\\s*2\\s*\\}")),
    ?assertEqual(infinity, lobby_transactions:deadline(Table2)).

too_many_are_refused_test() ->
    T = lists:foldl(fun(N, Acc) -> element(2, lobby_transactions:submit({queued, N}, ?ACTION, 0, Acc)) end, new(), lists:seq(1, 1040)),
    ?assertMatch({[{refuse, me, busy}], _}, lobby_transactions:submit({queued, me}, ?ACTION, 0, T)).

an_urgent_request_is_the_next_test() ->
    T = lists:foldl(fun(N, Acc) -> element(2, lobby_transactions:submit({queued, N}, ?ACTION, 0, Acc)) end, new(), lists:seq(1, 1040)),
    {[], Table1} = lobby_transactions:submit({urgent, me}, #{context => 77, commands => [{subtract, all}]}, 0, T),
    {[{answer, 2, 1, _, _}, {'begin', _, me}, {send, Message}], _} = lobby_transactions:received(2, {error, 501}, 1, Table1),
    ?assertMatch({match, _}, re:run(Message, "C=77")).

what_is_held_back_is_sent_again_under_its_number_test() ->
    {_, Table0} = lobby_transactions:submit({queued, me}, ?ACTION, 0, new()),
    Held = lobby_transactions:pause(Table0),
    ?assertEqual(infinity, lobby_transactions:deadline(Held)),
    {[{'begin', _, audit}, {send, Audit}], Table1} = lobby_transactions:submit({forever, audit}, ?ACTION, 500, Held),
    ?assertMatch({match, _}, re:run(Audit, "T=3\\{")),
    %% A late reply to a held request is ignored, because the gateway will send it again.
    {[], Table2} = lobby_transactions:received(2, {error, 501}, 600, Table1),
    {[{answer, 3, audit, _, _}], Table3} = lobby_transactions:received(3, {error, 501}, 600, Table2),
    {[{'begin', _, me}, {send, Again}], Table4} = lobby_transactions:resume(600, Table3),
    ?assertMatch({match, _}, re:run(Again, "T=2\\{")),
    {[{answer, 2, me, _, _}], _} = lobby_transactions:received(2, {error, 501}, 700, Table4),
    {Sent, _} = lobby_transactions:abandon(Table2),
    ?assertEqual([2, 3], [Number || {_, Number, _} <- Sent]).

%% Requests that are submitted meanwhile wait, too.
what_comes_while_requests_are_held_back_waits_test() ->
    {[], T} = lobby_transactions:submit({queued, me}, ?ACTION, 0, lobby_transactions:pause(new())),
    ?assert(lobby_transactions:awaits(fun(From) -> From =:= me end, T)),
    {1, _} = sends(lobby_transactions:resume(10, T)).

%% Another process may repeat a stored request. A copy of the reply doesn't match that process's own requests, and isn't
%% acknowledged.
a_kept_request_keeps_its_names_test() ->
    {[{'begin', Sent, me}, {send, Message}], T} = lobby_transactions:submit({queued, me}, ?ACTION, 0, new()),
    {[Sent], Abandoned} = lobby_transactions:abandon(T),
    ?assertMatch({[{'begin', Sent, me}, {send, Message}], _}, lobby_transactions:resubmit({patiently, me}, Sent, 1, Abandoned)),
    Other = lobby_transactions:new({18, 2945}, 2, ?OPTIONS),
    {[_, {send, Message}], Repeated} = lobby_transactions:resubmit({patiently, me}, Sent, 1, lobby_transactions:pause(Other)),
    ?assertEqual([{{17, 2945}, me}], lobby_transactions:open(Repeated)),
    {[], Waiting} = lobby_transactions:submit({queued, other}, ?ACTION, 2, Repeated),
    {[{answer, 2, me, _, _}], Answered} = lobby_transactions:received(2, {error, 501}, 3, Waiting),
    ?assertEqual(infinity, lobby_transactions:deadline(Answered)),
    {[{'begin', {{18, 2945}, 3, _}, other}, {send, Own}], Resumed} = lobby_transactions:resume(4, Answered),
    ?assertMatch({match, _}, re:run(Own, "<18\\.lobby>:2945")),
    ?assertMatch({[], _}, lobby_transactions:received(2, {error, 501}, 5, Resumed)).

%% A request that creates a termination waits each time, even if it may have been sent before.
a_request_that_makes_something_waits_test() ->
    New = #{context => 2, commands => [{add_optional, #{}}]},
    {[{'begin', Sent, me}, {wait, 2}], T} = lobby_transactions:submit({queued, me}, New, 0, new()),
    ?assertEqual(infinity, lobby_transactions:deadline(T)),
    {[{send, Message}], Went} = lobby_transactions:go(2, 50, T),
    ?assertEqual(150, lobby_transactions:deadline(Went)),
    ?assertMatch({[], _}, lobby_transactions:go(2, 60, Went)),
    ?assertMatch({[{'begin', Sent, me}, {wait, 2}], _}, lobby_transactions:resume(70, lobby_transactions:pause(Went))),
    {[Sent], Abandoned} = lobby_transactions:abandon(T),
    {[{'begin', Sent, unknown}, {wait, 2}], Again} = lobby_transactions:resubmit({patiently, unknown}, Sent, 80, Abandoned),
    ?assertMatch({[{send, Message}], _}, lobby_transactions:go(2, 90, Again)),
    ?assertMatch({[], _}, lobby_transactions:go(2, 90, Abandoned)).
