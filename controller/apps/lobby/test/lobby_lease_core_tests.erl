%% Tests the decisions of a node of a pair: first each decision separately, then two nodes over a network that is slow,
%% or cut in one or both directions. A node that takes over must have every change that was answered.
-module(lobby_lease_core_tests).

-include_lib("eunit/include/eunit.hrl").
-include("properties.hrl").

-export([prop_who_takes_over_has_what_was_answered/0]).

-define(GAP, 250).

%%% A single node. The tests send it the other node's beats.

new() -> new(free).

new(Permit) ->
    {State, _} = lobby_lease_core:new(#{gap => ?GAP, run => own, permit => Permit, now => 0}),
    State.

%% Handles the events in turn. Returns the state and the actions of the last event.
run(Events, State) ->
    lists:foldl(fun(Event, {S, _}) -> lobby_lease_core:handle(Event, S) end, {State, []}, Events).

after_events(Events, State) -> element(1, run(Events, State)).

tick(Now) -> tick(#{}, Now).

tick(Seen, Now) ->
    {tick, maps:merge(#{open => true, term => 4, lease => false, connected => true, copied => true}, Seen), Now}.

lease(Now) -> tick(#{lease => true}, Now).
alone(Now) -> tick(#{lease => true, connected => false, copied => false}, Now).

heard(Role, Now) -> heard(Role, #{}, Now).

heard(Role, More, Now) ->
    {heard, maps:merge(#{role => Role, sent => {other, 1000000 + Now}, granted => none, told => none}, More), Now}.

said(Actions) -> [Said || {say, Said} <- Actions].
roles(Actions) -> [Role || #{role := Role} <- said(Actions)].
served(Actions) -> [Term || {serve, Term} <- Actions].
stopped(Actions) -> [Why || {stop, Why} <- Actions].
asked(Actions) -> [Asked || {ask, Asked} <- Actions].
limit(Actions) -> hd([Limit || {limit, Limit} <- Actions]).

%% These functions return some of the last event's actions.
serves(Events, State) -> served(element(2, run(Events, State))).
stops(Events, State) -> stopped(element(2, run(Events, State))).
limits(Events, State) -> limit(element(2, run(Events, State))).

%% Returns a standby that heard at 100 that the other node serves.
standby() ->
    after_events([heard({serving, 4}, 100), tick(120)], new()).

granted(Sent, Now) -> heard({serving, 4}, #{granted => {own, Sent}}, Now).

%% Returns a node that has served since 0, and whose standby confirmed this at 100.
serving() ->
    after_events([alone(0), heard(standby, #{told => own}, 100)], new()).

%%% A node that starts.

a_node_opens_with_its_store_test() ->
    {State, First} = run([tick(#{open => false, connected => false}, 0)], new()),
    ?assertEqual([waiting], roles(First)),
    {_, Then} = run([tick(#{connected => false}, 10), tick(#{connected => false}, 110)], State),
    ?assertEqual([standby], roles(Then)).

%% A node that is connected to the other node doesn't take over before it has heard whether that node serves.
a_node_that_is_connected_hears_first_test() ->
    ?assertEqual([], serves([{connected, 0}, lease(10)], new())),
    ?assertEqual([], serves([{connected, 0}, lease(10), lease(110)], new())),
    ?assertEqual([5], serves([{connected, 0}, heard(waiting, 10), lease(20)], new())),
    ?assertEqual([], serves([{connected, 0}, heard({serving, 4}, 10), lease(20)], new())),
    ?assertEqual([5], serves([alone(0)], new())).

it_says_at_once_who_serves_test() ->
    ?assertMatch([#{role := {serving, 5}, granted := none}], said(element(2, run([{connected, 500}], serving())))).

%%% A standby that takes over.

a_standby_needs_a_grant_test() ->
    ?assertEqual([], serves([lease(140)], standby())),
    ?assertEqual([5], serves([granted(100, 140), lease(160)], standby())).

%% The time counts from the stamp, not from the grant's arrival. A duplicate grant doesn't extend it.
a_grant_ends_3_s_after_its_stamp_test() ->
    Granted = after_events([granted(200, 1000), granted(200, 3000)], standby()),
    ?assertEqual([5], serves([lease(3200)], Granted)),
    ?assertMatch({_, [{stop, _}]}, run([lease(3201)], Granted)).

%% A standby doesn't take over after its grant, even if it sent the stamp before it heard that the other node serves.
nothing_is_taken_over_after_the_grant_test() ->
    Granted = after_events([granted(50, 140)], standby()),
    ?assertEqual([5], serves([lease(3050)], Granted)),
    ?assertMatch({[], []}, {serves([lease(3051)], Granted), stops([lease(3051)], Granted)}).

a_grant_to_an_earlier_process_is_none_test() ->
    ?assertEqual([], serves([heard({serving, 4}, #{granted => {earlier, 100000}}, 140), lease(160)], standby())).

%% The other node has started a new process, which may have answered changes that this node lacks.
a_new_process_revokes_what_the_one_before_granted_test() ->
    Next = heard({serving, 5}, #{sent => {next, 1}}, 150),
    ?assertEqual([], serves([granted(100, 140), Next, lease(160)], standby())).

a_standby_without_a_grant_ends_after_3_s_test() ->
    ?assertEqual([], stops([tick(3100)], standby())),
    ?assertMatch([_], stops([tick(3101)], standby())),
    %% A standby without a grant exits even if it hears the other node.
    ?assertMatch([_], stops([heard({serving, 4}, 3090), tick(3101)], standby())),
    ?assertEqual([], stops([granted(200, 300), tick(3200)], standby())),
    ?assertMatch([_], stops([granted(200, 300), tick(3201)], standby())).

%% The process doesn't know its predecessor's grants.
a_process_that_is_started_again_needs_a_grant_test() ->
    ?assertEqual([], serves([tick(0), heard(waiting, 20), lease(40)], new(told))),
    ?assertMatch([_], stops([heard(waiting, 20), tick(40), tick(3001)], new(told))),
    ?assertEqual([5], serves([heard(waiting, 10), lease(20)], new(free))).

%% The node has served, so its new process serves or exits.
a_process_of_a_node_that_served_is_started_again_test() ->
    ?assertEqual([5], serves([lease(0)], new(serves))),
    ?assertMatch([_], stops([tick(0)], new(serves))),
    ?assertMatch([_], stops([tick(#{open => false}, 0)], new(serves))),
    ?assertMatch([_], stops([heard({serving, 4}, 0)], new(serves))),
    ?assertEqual([], stops([heard(standby, 0), heard(waiting, 0)], new(serves))).

%% Before a standby answers, it makes sure that its next start doesn't use an old copy. A waiting node has no copy.
it_follows_before_it_answers_test() ->
    Standby = after_events([heard(standby, 0), tick(20)], new()),
    {_, [{limit, none} | Actions]} = run([heard({serving, 4}, 30)], Standby),
    ?assertMatch([{keep, told}, follow, {say, #{told := other, granted := none}}], Actions),
    {Waits, [{limit, none} | Then]} = run([heard({serving, 4}, 30)], new()),
    ?assertMatch([{keep, told}, {say, #{told := other}}], Then),
    ?assertMatch([{limit, none}, follow, {say, #{role := standby}} | _], element(2, run([tick(40)], Waits))).

nodes_that_were_apart_test() ->
    ?assertMatch([_], stops([inconsistent], standby())),
    ?assertEqual([], stops([inconsistent], serving())),
    ?assertEqual([], stops([inconsistent], new())).

%%% A node that serves.

it_says_so_before_it_serves_test() ->
    {_, [{limit, none} | Actions]} = run([granted(100, 140), lease(3000)], standby()),
    ?assertMatch([{keep, serves}, {say, #{role := {serving, 5}}}, drop, {serve, 5} | _], Actions),
    %% A standby isn't dropped.
    {_, [{limit, _} | Other]} = run([heard(standby, 10), lease(20)], new()),
    ?assertMatch([{keep, serves}, {say, #{role := {serving, 5}}}, {serve, 5} | _], Other).

it_ends_without_the_lease_test() ->
    ?assertEqual([], stops([lease(200)], serving())),
    ?assertMatch([_], stops([tick(200)], serving())).

it_ends_if_the_other_node_began_later_test() ->
    ?assertMatch([_], stops([heard({serving, 6}, 200)], serving())),
    ?assertEqual([], stops([heard({serving, 5}, 200)], serving())),
    ?assertEqual([], stops([heard({serving, 4}, 200)], serving())).

it_drops_a_silent_node_once_test() ->
    ?assertNot(lists:member(drop, element(2, run([lease(350)], serving())))),
    {Dropped, Actions} = run([lease(351)], serving()),
    ?assert(lists:member(drop, Actions)),
    ?assertNot(lists:member(drop, element(2, run([lease(371)], Dropped)))).

%% A waiting node gets no grant, because it has no copy. A standby that hasn't heard that this node serves gets none,
%% because it doesn't count the time. Without a copy of all writes, there is no grant, either.
it_grants_only_to_its_standby_test_() ->
    [?_assertEqual(Granted, begin
         {_, Actions} = run([Says, tick(maps:merge(#{lease => true}, Seen), Now)], serving()),
         [Stamp || #{granted := Stamp} <- said(Actions), Stamp =/= none]
     end) || {Granted, Says, Seen, Now} <-
             [{[{other, 1000110}], heard(standby, #{told => own}, 110), #{}, 120},
              {[], heard(waiting, #{told => own}, 110), #{}, 120},
              {[], heard(standby, #{told => none}, 110), #{}, 120},
              {[], heard(standby, #{told => earlier}, 110), #{}, 120},
              {[], heard(standby, #{told => own}, 110), #{copied => false}, 120},
              {[], heard(standby, #{told => own}, 110), #{}, 400},
              {[], {lost, 110}, #{}, 120}]].

%% The limit counts from the arrival of the other node's stamp. It is set before the grant is sent.
what_it_granted_limits_its_answers_test() ->
    {Granted, Actions} = run([lease(120)], serving()),
    ?assertMatch([{limit, 3110}, {say, #{granted := {other, _}}} | _], Actions),
    {_, Next} = run([heard(standby, #{told => own}, 200), lease(220)], Granted),
    ?assertMatch([{limit, 3210}, {say, _} | _], Next),
    %% The limit is the same for a lost and for a silent node.
    ?assertEqual(3110, limits([{lost, 130}], Granted)),
    ?assertEqual(3110, limits([lease(400)], Granted)).

%% A node that has ended or waits has no grant. It gets a new grant after its restart.
a_node_that_ended_limits_nothing_test() ->
    Granted = after_events([lease(120)], serving()),
    ?assertEqual(none, limits([heard(waiting, #{told => own}, 130)], Granted)),
    {Ended, _} = run([{gone, 130}], Granted),
    ?assertEqual(none, limits([lease(140)], Ended)),
    ?assertEqual(3150, limits([heard(standby, #{told => own}, 140), lease(220)], Ended)).

%% A node that was heard after the check was requested has restarted.
a_node_that_was_heard_since_has_not_ended_test() ->
    Granted = after_events([lease(120)], serving()),
    ?assertEqual(3110, limits([{gone, 100}], Granted)),
    ?assertEqual(none, limits([{gone, 101}], Granted)).

%% A standby may take over without a grant until it confirms that this node serves.
a_standby_that_was_not_told_limits_its_answers_test() ->
    State = after_events([heard(standby, 10), lease(20)], new()),
    ?assertEqual(3110, limits([heard(standby, 100)], State)),
    ?assertEqual(none, limits([heard(standby, #{told => own}, 100)], State)).

%% An earlier process of this node may have sent a grant.
a_node_that_starts_answers_after_3_s_test() ->
    {State, First} = lobby_lease_core:new(#{gap => ?GAP, run => own, permit => free, now => 0}),
    ?assertEqual([{limit, 3010}], First),
    {Serves, Actions} = run([alone(10)], State),
    ?assertEqual({[5], 3010, [10]}, {served(Actions), limit(Actions), asked(Actions)}),
    ?assertEqual(none, limits([{gone, 10}], Serves)).

%% The node checks this only while changes would have to wait.
it_asks_whether_a_lost_node_has_ended_test() ->
    Granted = after_events([lease(120)], serving()),
    Asks = fun(Events, State) -> asked(element(2, run(Events, State))) end,
    ?assertEqual([130], Asks([{lost, 130}], Granted)),
    ?assertEqual([230], Asks([{lost, 130}, alone(230)], Granted)),
    ?assertEqual([400], Asks([lease(400)], Granted)),
    ?assertEqual([], Asks([{lost, 130}, {gone, 130}, alone(230)], Granted)),
    ?assertEqual([], Asks([{lost, 130}, alone(3110)], Granted)),
    ?assertEqual([], Asks([lease(230)], Granted)),
    ?assertEqual([], Asks([{lost, 130}], standby())).

%% keepalived adds these values to its priority.
its_priority_test() ->
    Ready = fun(Events, State) -> [Value || {ready, Value} <- element(2, run(Events, State))] end,
    ?assertEqual([-254], Ready([tick(#{open => false}, 0)], new())),
    ?assertEqual([0], Ready([granted(100, 140), tick(220)], standby())),
    ?assertEqual([25], Ready([lease(200)], serving())),
    ?assertEqual([25], Ready([lease(10000)], serving())),
    ?assertEqual([-20], Ready([lease(10001)], serving())),
    ?assertEqual([25], Ready([alone(20000)], after_events([tick(#{connected => false}, 0)], new()))),
    ?assertEqual([25], Ready([{reaches, 5000}, lease(15000)], serving())),
    ?assertEqual([-20], Ready([{reaches, 5000}, lease(15001)], serving())).

%%% A model of two nodes, each with a set of changes. A change is on both nodes if they are connected and the network
%%% delivers, and only on the serving node if they are disconnected. Otherwise, it isn't written yet.

%% `serves': the node's number in the order in which nodes began to serve, or 0.
-record(node, {core = ended, permit = free, clock, has = [], pending = [], limit = none, serves = 0, hangs = 0,
               open = false, seen = 0}).
%% `cut': the directions in which nothing arrives. `wire': the messages in flight, oldest first.
-record(pair, {now = 0, nodes, lease = a, connected = true, cut = [], wire = [], changes = 0, answered = [],
               broken = [], runs = 0, served = 0}).

other(a) -> b;
other(b) -> a.

%% Returns a pair in which `a' serves, and `b' is its standby.
pair() ->
    Pair = #pair{nodes = #{a => #node{clock = {7000, 1000}}, b => #node{clock = {-90000, 1001}}}},
    pass(400, start(b, true, pass(40, start(a, true, Pair)))).

start(Name, Open, Pair = #pair{now = Now}) ->
    #node{clock = Clock, has = Has} = node_of(Name, Pair),
    process(Name, #node{clock = Clock, has = Has, open = Open, seen = Now}, Pair).

%% Starts or restarts the process of the lease.
process(Name, Node = #node{clock = Clock, permit = Permit}, Pair = #pair{runs = Runs}) ->
    {Core, Actions} = lobby_lease_core:new(#{gap => ?GAP, run => Runs, permit => Permit, now => clock(Clock, Pair)}),
    act(Actions, Name, with(Name, Node#node{core = Core}, Pair#pair{runs = Runs + 1})).

node_of(Name, #pair{nodes = Nodes}) -> maps:get(Name, Nodes).
with(Name, Node, Pair = #pair{nodes = Nodes}) -> Pair#pair{nodes = Nodes#{Name := Node}}.
clock({Offset, Rate}, #pair{now = Now}) -> Offset + Now * Rate div 1000.
is_up(Name, Pair) -> (node_of(Name, Pair))#node.core =/= ended.

is_copied(Name, Pair = #pair{connected = Connected}) ->
    Connected andalso is_up(other(Name), Pair) andalso (node_of(other(Name), Pair))#node.open.

event(Event, Name, Pair) ->
    Node = #node{core = Core} = node_of(Name, Pair),
    case Core of
        ended -> Pair;
        _ ->
            {Next, Actions} = lobby_lease_core:handle(Event, Core),
            act(Actions, Name, with(Name, Node#node{core = Next}, Pair))
    end.

act(Actions, Name, Pair) -> lists:foldl(fun(Action, Acc) -> act_one(Action, Name, Acc) end, Pair, Actions).

act_one({stop, _}, Name, Pair) -> ended(Name, Pair);
act_one({limit, Limit}, Name, Pair) -> with(Name, (node_of(Name, Pair))#node{limit = Limit}, Pair);
act_one({keep, Permit}, Name, Pair) -> with(Name, (node_of(Name, Pair))#node{permit = Permit}, Pair);
act_one({say, Said}, Name, Pair = #pair{connected = true, wire = Wire, now = Now}) ->
    Pair#pair{wire = Wire ++ [{Name, other(Name), {heard, Said}, Now + 1}]};
act_one(drop, Name, Pair) -> disconnected(Name, Pair);
act_one({serve, _}, Name, Pair = #pair{served = N}) ->
    Node = #node{has = Has} = node_of(Name, Pair),
    Lacks = Pair#pair.answered -- Has,
    with(Name, Node#node{serves = N + 1},
         Pair#pair{served = N + 1, broken = [{Name, serves_without, Lacks} || Lacks =/= []] ++ Pair#pair.broken});
act_one({ask, Asked}, Name, Pair = #pair{now = Now, cut = Cut, wire = Wire}) ->
    Pair#pair{wire = Wire ++ [{Name, Name, {gone, Asked}, Now + 2} || Cut =:= [], not is_up(other(Name), Pair)]};
act_one(_, _, Pair) -> Pair.

%% Disconnects the nodes. Messages in flight still arrive, unless the network is cut. Afterwards, both nodes
%% learn of the disconnection.
disconnected(_, Pair = #pair{connected = false}) -> Pair;
disconnected(Name, Pair = #pair{wire = Wire, now = Now}) ->
    Lost = [{Name, To, lost, Now + 1} || To <- [Name, other(Name)]],
    written(b, written(a, Pair#pair{connected = false, wire = Wire ++ Lost})).

%% Writes the waiting changes to both nodes once the other node answers, or only to this node if the other one is
%% disconnected.
written(Name, Pair = #pair{cut = Cut}) ->
    Node = #node{has = Has, pending = Pending} = node_of(Name, Pair),
    Written = with(Name, Node#node{has = Pending ++ Has, pending = []}, Pair),
    case {is_copied(Name, Pair), Cut =:= [] andalso not hangs(other(Name), Pair)} of
        {true, true} ->
            Other = #node{has = Copy} = node_of(other(Name), Pair),
            with(other(Name), Other#node{has = Pending ++ Copy}, Written);
        {true, false} -> Pair;
        {false, _} -> Written
    end.

ended(Name, Pair) ->
    #node{clock = Clock, has = Has} = node_of(Name, Pair),
    disconnected(other(Name), with(Name, #node{clock = Clock, has = Has}, Pair)).

%%% Events.

step({pass, Ms}, Pair) -> pass(Ms, Pair);
step({cut, Directions}, Pair) -> Pair#pair{cut = Directions};
step({kill, Name}, Pair) -> case is_up(Name, Pair) of true -> ended(Name, Pair); false -> Pair end;
step({hang, Name, Ms}, Pair) -> with(Name, (node_of(Name, Pair))#node{hangs = Pair#pair.now + Ms}, Pair);
%% keepalived takes at least 261 ms to give the address to the other host.
step({lease, Name}, Pair) -> pass(260, Pair#pair{lease = Name});
%% Only the process ends. The node continues.
step({crash, Name}, Pair) ->
    case is_up(Name, Pair) andalso not hangs(Name, Pair) of
        true -> process(Name, node_of(Name, Pair), Pair);
        false -> Pair
    end;
step(disconnect, Pair) -> disconnected(a, Pair);
step({start_again, Name}, Pair) -> again(is_up(Name, Pair), Name, Pair);
step(change, Pair) -> lists:foldl(fun change/2, Pair, [a, b]).

%% Restarts a node that has ended, if it can reach a serving node and copy its data.
again(false, Name, Pair = #pair{cut = []}) ->
    case node_of(other(Name), Pair) of
        #node{serves = Serves, has = Has, hangs = Hangs} when Serves > 0, Hangs =< Pair#pair.now ->
            Joins = with(Name, (node_of(Name, Pair))#node{has = Has}, Pair#pair{connected = true}),
            Now = fun(Who) -> clock((node_of(Who, Joins))#node.clock, Joins) end,
            Met = event({connected, Now(other(Name))}, other(Name), start(Name, false, Joins)),
            pass(20, opens(Name, pass(20, Met)));
        _ -> Pair
    end;
again(_, _, Pair) -> Pair.

opens(Name, Pair) ->
    case {node_of(Name, Pair), node_of(other(Name), Pair)} of
        {Node = #node{core = Core}, #node{serves = N, has = Has}} when Core =/= ended, N > 0, Pair#pair.connected ->
            with(Name, Node#node{open = true, has = Has}, Pair);
        _ -> Pair
    end.

change(Name, Pair = #pair{changes = N}) ->
    Node = #node{serves = Serves, pending = Pending} = node_of(Name, Pair),
    case Serves > 0 andalso not hangs(Name, Pair) of
        true -> written(Name, with(Name, Node#node{pending = [N | Pending]}, Pair#pair{changes = N + 1}));
        false -> Pair
    end.

hangs(Name, Pair) -> (node_of(Name, Pair))#node.hangs > Pair#pair.now.

%% Time passes in steps of 10 ms. A node ticks every 20 ms unless it hangs, and exits after a gap.
pass(Ms, Pair) when Ms =< 0 -> Pair;
pass(Ms, Pair = #pair{now = Now}) ->
    Delivered = deliver(written(a, written(b, Pair#pair{now = Now + 10}))),
    pass(Ms - 10, lists:foldl(fun answer/2, lists:foldl(fun ticked/2, Delivered, [a, b]), [a, b])).

deliver(Pair = #pair{wire = Wire, now = Now, cut = Cut}) ->
    Ready = [Item || Item = {From, To, _, At} <- Wire, At =< Now, not hangs(To, Pair),
                     From =:= To orelse not lists:member(To, Cut)],
    lists:foldl(fun delivered/2, Pair#pair{wire = Wire -- Ready}, Ready).

delivered({_, To, Message, _}, Pair) ->
    Time = clock((node_of(To, Pair))#node.clock, Pair),
    event(case Message of
        lost -> {lost, Time};
        {heard, Said} -> {heard, Said, Time};
        {gone, _} -> Message
    end, To, Pair).

ticked(Name, Pair = #pair{now = Now, lease = Lease}) ->
    Node = #node{core = Core, clock = Clock, open = Open, seen = Seen} = node_of(Name, Pair),
    case Core =:= ended orelse hangs(Name, Pair) orelse Now - Seen < 20 of
        true -> Pair;
        false when Now - Seen > ?GAP -> ended(Name, Pair);
        false ->
            Sees = #{open => Open, term => 0, lease => Lease =:= Name, connected => Pair#pair.connected,
                     copied => is_copied(Name, Pair)},
            event({tick, Sees, clock(Clock, Pair)}, Name, with(Name, Node#node{seen = Now}, Pair))
    end.

%% Answers all changes that a node has and may answer. A node that began to serve later, and continues, must have these
%% changes.
answer(Name, Pair = #pair{answered = Answered, now = Now}) ->
    #node{serves = Serves, has = Has, limit = Limit, clock = Clock} = node_of(Name, Pair),
    Durable = is_copied(Name, Pair) orelse Limit =:= none orelse clock(Clock, Pair) >= Limit,
    case Serves > 0 andalso Durable andalso not hangs(Name, Pair) andalso Has -- Answered of
        New = [_ | _] ->
            #node{serves = Later, has = Known, hangs = Hangs} = node_of(other(Name), Pair),
            Lacks = [N || N <- New -- Known, Later > Serves, Hangs - Now =< ?GAP],
            Pair#pair{answered = New ++ Answered,
                      broken = [{Name, answers_alone, Lacks} || Lacks =/= []] ++ Pair#pair.broken};
        _ -> Pair
    end.

steps() ->
    list(frequency([{6, {pass, oneof([20, 100, 260, 400, 900, 2700, 3100])}}, {4, change},
                    {2, {cut, oneof([[a], [b], [a, b]])}}, {1, {cut, []}}, {1, disconnect},
                    {1, {hang, oneof([a, b]), oneof([100, 240, 400, 3000])}}, {2, {kill, oneof([a, b])}},
                    {2, {lease, oneof([a, b])}}, {2, {start_again, oneof([a, b])}},
                    {1, {crash, oneof([a, b])}}])).

%% Only one node has the lease at a time. If both nodes had it, neither could know the other's changes.
prop_who_takes_over_has_what_was_answered() ->
    ?FORALL(Steps, steps(), begin
        #pair{broken = Broken} = lists:foldl(fun step/2, pair(), Steps ++ [{pass, 3500}]),
        Broken =:= []
    end).

%% The property isn't vacuous: changes are answered, immediately or after 3 s, and the other node takes over.
the_pair_of_the_property_works_test() ->
    Go = fun(Steps) -> lists:foldl(fun step/2, pair(), Steps) end,
    ?assertMatch(#pair{answered = [0], broken = []}, Go([change, {pass, 20}])),
    ?assertMatch(#pair{answered = []}, Go([disconnect, change, {pass, 2800}])),
    ?assertMatch(#pair{answered = [0], nodes = #{b := #node{core = ended}}}, Go([disconnect, change, {pass, 3200}])),
    ?assertMatch(#pair{answered = [0]}, Go([{kill, b}, change, {pass, 50}])),
    ?assertMatch(#pair{answered = [0], nodes = #{b := #node{serves = 2, has = [0]}}},
                 Go([change, {pass, 20}, {kill, a}, {lease, b}, {pass, 40}])),
    ?assertMatch(#pair{answered = [], nodes = #{b := #node{serves = 2, has = []}}},
                 Go([{cut, [a, b]}, change, {pass, 600}, {kill, a}, {lease, b}, {pass, 40}])),
    %% Late beats, which arrive once the network delivers again, don't extend a grant.
    Late = [{cut, [b]}, {pass, 900}, change, {cut, []}, {pass, 2400}, {kill, a}, {lease, b}, {pass, 40}],
    ?assertMatch(#pair{answered = [0], broken = []}, Go(Late)).

properties_test_() ->
    [?property(prop_who_takes_over_has_what_was_answered, 2000)].
