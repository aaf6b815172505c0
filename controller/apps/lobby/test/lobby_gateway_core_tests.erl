%% Tests the requests to a gateway that is lost, or that an earlier process used.
-module(lobby_gateway_core_tests).

-include_lib("eunit/include/eunit.hrl").

-define(OWN, {1, 1, {{127, 0, 0, 1}, 9}}).
-define(KEPT, #{generation => 1, sentinel => ?OWN, contexts => [], unknown => []}).

new(Settled, Kept) ->
    lobby_gateway_core:new(#{
        config => #{name => <<"1">>, address => {{127, 0, 0, 1}, 2944}, here => {127, 0, 0, 1}, retry => 100, tries => 4, quiet => 5000,
                    audit => 250, returns => 1000, terminations => 256, contexts => 64},
        sender => {18, 2945}, first => 2, settled => Settled, entries => [], kept => Kept}).

%% Returns a gateway that has a conference, and hasn't returned in time.
lost(Settled) ->
    lost(Settled, 0).

lost(Settled, Now) ->
    {Started, _} = handle({start, []}, Now, new(Settled, ?KEPT#{contexts := [{2, all}]})),
    handle({timer, back, 1000}, Now + 1000, Started).

%% Handles an event. Stored requests are durable immediately.
handle(Event, Now, G) ->
    Kept = lobby_gateway_core:handle(Event, Now, G),
    lists:foldl(fun(Durable, {Acc, Actions}) ->
        {Next, More} = lobby_gateway_core:handle(Durable, Now, Acc),
        {Next, Actions ++ More}
    end, Kept, [Durable || Durable = {durable, _} <- element(2, Kept)]).

subtracts(Actions) ->
    [Message || {send, Message} <- Actions, string:find(Message, "O-S=") =/= nomatch].

it_is_asked_to_end_all_test() ->
    {_, Actions} = lost(0),
    ?assertMatch([_], subtracts(Actions)).

%% The other node of a pair may still use the contexts, so nothing is subtracted before the gateway answers.
the_other_node_is_heard_of_first_test() ->
    {G, Actions} = lost(1000),
    {_, Later} = handle({timer, clean, 1000}, 9000, G),
    ?assertEqual([], subtracts(Actions ++ Later)).

%% A rejected subtraction is tried again. The time is negative, like Erlang's monotonic time.
what_it_refuses_to_end_is_tried_again_test() ->
    Now = -576460750000,
    {G, Actions} = lost(0, Now),
    [Subtract] = subtracts(Actions),
    Refused = {received, {reply, number(Subtract), {error, 500}}},
    {_, Later} = handle(Refused, Now + 1100, G),
    ?assert(lists:member({timer, clean, 1000}, Later)).

%% A room is notified that its request was lost with a process that failed. While an answer is awaited, the room is sent
%% nothing.
a_lost_request_is_reported_test() ->
    {G, _} = lost(0),
    Handle = lobby_gateway_core:handle_of(G),
    Told = fun(Actions) -> [{Room, Message} || {tell, Room, Message} <- Actions] end,
    {_, Lost} = handle({unanswered, Handle, <<"100">>, 1}, 2000, G),
    ?assertEqual([{<<"100">>, {answer, 1, {error, lost}}}], Told(Lost)),
    {Asked, _} = handle({request, Handle, <<"100">>, 1, #{context => 3, commands => [{audit, all, []}]}, []}, 2000, G),
    {_, Awaited} = handle({unanswered, Handle, <<"100">>, 1}, 2000, Asked),
    ?assertEqual([], Told(Awaited)).

%%% An earlier process had the number 17.

number(Message) ->
    {match, [Number]} = re:run(Message, "T=([0-9]+)", [{capture, all_but_first, list}]),
    list_to_integer(Number).

sent(Sender, Actions) ->
    [Message || {send, Message} <- Actions, string:find(Message, Sender) =/= nomatch].

%% Two requests of rooms, and a request that may have created a termination on a lost gateway.
-define(EARLIER, [{{{17, 9}, 5, #{context => 4, commands => []}}, {room, <<"100">>, ref, []}},
                  {{{17, 9}, 7, #{context => 6, commands => []}}, {room, <<"200">>, ref, []}}]).
-define(UNKNOWN, {{17, 9}, 3, #{context => new, commands => [{add_optional, #{mode => inactive}}]}}).

earlier_requests_are_answered_first_test() ->
    {G0, Actions} = handle({start, ?EARLIER}, 0, new(0, ?KEPT#{unknown := [?UNKNOWN]})),
    ?assertEqual([3, 5, 7], lists:sort([number(Message) || Message <- sent("<17.lobby>:9", Actions)])),
    {G1, Asked} = handle({holdings, {<<"1">>, 1}, <<"100">>}, 1, G0),
    {G2, First} = handle({received, {reply, 5, {error, 411}}}, 2, G1),
    %% The contexts aren't subtracted yet.
    {G3, Ends} = handle({'end', {<<"1">>, 1}, [{4, all}]}, 3, G2),
    {G4, Second} = handle({received, {reply, 3, {error, 411}}}, 4, G3),
    %% No reply is acknowledged with the new number.
    {G5, Again} = handle({timer, transactions, none}, 9000, G4),
    ?assertEqual([], sent("<18.lobby>", Actions ++ Asked ++ First ++ Ends ++ Second ++ Again)),
    {G6, Third} = handle({received, {reply, 7, {error, 411}}}, 9001, G5),
    [Audit] = sent("<18.lobby>", Third),
    ?assertMatch({match, _}, re:run(Audit, "C=1\\{\\s*AV=rtp/1", [caseless])),
    ?assertEqual([], [Told || Told = {tell, _, {holdings, _}} <- Asked ++ First ++ Ends ++ Second ++ Again ++ Third]),
    {_, Serves} = handle(own(number(Audit)), 9002, G6),
    ?assert(lists:member({tell, <<"100">>, {holdings, []}}, Serves)).

own(Number) ->
    {_, T, Remote} = ?OWN,
    {received, {reply, Number, {ok, [#{context => 1, results => [{audit, T, #{remote => {Remote, pcmu}}}]}]}}}.

-define(CHECKED, {received, {reply, 1, {ok, [#{context => null, results => []}]}}}).
-define(REPEATS, {timer, transactions, none}).

checks(Actions) -> [Check || {send, Check} <- Actions, Check =:= lobby_h248:check()].

%% Handles these events, each at its time. Returns the state and the actions of the last event.
happens(Events, G) ->
    lists:foldl(fun({Event, Now}, {Acc, _}) -> handle(Event, Now, Acc) end, {G, []}, Events).

%% Earlier requests are retransmitted at constant intervals while the gateway may return, and at growing intervals once
%% it is lost.
earlier_requests_are_repeated_test() ->
    {G, _} = happens([{{start, ?EARLIER}, 0}], new(0, ?KEPT#{unknown := [?UNKNOWN]})),
    Repeated = fun(Events) -> {_, Actions} = happens(Events, G), length(sent("<17.lobby>", Actions)) end,
    Often = [{?REPEATS, Time} || Time <- [100, 200, 300]],
    ?assertEqual([3, 3, 3], [Repeated(lists:sublist(Often, N)) || N <- [1, 2, 3]]),
    Lost = Often ++ [{{timer, back, none}, 1000}, {?REPEATS, 1100}],
    ?assertEqual([1, 0, 1], [Repeated(Lost ++ More) || More <- [[], [{?REPEATS, 1200}], [{?REPEATS, 1300}]]]).

%% A gateway that hasn't answered is sent checks while it is away, lost, or being cleaned.
one_that_does_not_answer_is_checked_test() ->
    {G0, Actions} = happens([{{start, []}, 0}], new(0, ?KEPT#{contexts := [{2, all}]})),
    {G1, Away} = happens([{?REPEATS, 100}], G0),
    {_, Lost} = happens([{{timer, back, none}, 1000}, {?REPEATS, 1100}], G1),
    [Audit] = sent("<18.lobby>", Actions),
    {Cleans, _} = happens([{{timer, back, none}, 1000}, {own(number(Audit) + 1), 1010}, {{timer, clean, none}, 1011}], G1),
    {_, Cleaning} = happens([{?REPEATS, 1200}], Cleans),
    ?assertEqual([0, 1, 1, 1], [length(checks(Did)) || Did <- [Actions, Away, Lost, Cleaning]]).

%% The gateway answers only checks.
a_number_that_is_too_low_is_noticed_test() ->
    {G0, _} = happens([{{start, []}, 0}, {?REPEATS, 100}, {?CHECKED, 100}], new(0, ?KEPT)),
    {G1, TooEarly} = happens([{?CHECKED, 499}], G0),
    ?assertEqual([], TooEarly -- [{deadline, 200}]),
    {G2, Noticed} = happens([{?CHECKED, 500}], G1),
    ?assert(lists:member({publish, fenced}, Noticed)),
    [Audit] = sent("<18.lobby>", Noticed),
    %% This is reported once, and the process keeps trying its own number.
    {G3, Again} = happens([{?REPEATS, 600}, {?CHECKED, 9000}, {?REPEATS, 9000}], G2),
    ?assertEqual([{send, Audit}], [Sent || Sent = {send, _} <- Again]),
    %% The operator has reset the fence.
    {_, Answered} = happens([{own(number(Audit)), 9001}], G3),
    ?assert(lists:member({timer, clean, 0}, Answered)).

%% The gateway no longer runs requests with the number 17. The new number may be high enough.
an_earlier_number_that_is_too_low_is_given_up_test() ->
    {G0, Actions} = happens([{{start, ?EARLIER}, 0}, {?REPEATS, 100}, {?CHECKED, 100}, {?CHECKED, 500}],
                            new(0, ?KEPT#{unknown := [?UNKNOWN]})),
    ?assertEqual([lost], [Event || {publish, Event} <- Actions]),
    ?assertEqual([[]], [Unknown || {keep, #{unknown := Unknown}} <- [lists:last([Keep || Keep = {keep, _} <- Actions])]]),
    [_] = sent("<18.lobby>", Actions),
    {_, Repeated} = happens([{?REPEATS, 600}], G0),
    ?assertEqual([], sent("<17.lobby>", Repeated)).

%% No other controller has a higher number: a reply to this process, or the answer to a check, is just late.
a_slow_answer_is_none_of_another_controller_test() ->
    Answered = {received, {reply, 5, {error, 411}}},
    [begin
         {_, Actions} = happens([{{start, ?EARLIER}, 0}, {?REPEATS, 100} | Events], new(0, ?KEPT)),
         ?assertEqual([], [Action || Action = {publish, _} <- Actions])
     end || Events <- [[{?CHECKED, 100}, {Answered, 300}, {?CHECKED, 500}], [{Answered, 300}, {?CHECKED, 300}, {?REPEATS, 900}, {?CHECKED, 900}]]].

%% The gateway's process was restarted before the gateway answered for the first time.
one_that_never_served_is_sent_requests_test() ->
    {G0, [{timer, probe, 0} | _]} = handle({start, []}, 0, new(0, ?KEPT#{sentinel := none})),
    {G1, Actions} = handle({timer, probe, {{127, 0, 0, 1}, 9}}, 0, G0),
    [Add] = sent("A=$", Actions),
    Added = {received, {reply, number(Add), {ok, [#{context => 1, results => [{add, 1, #{}}]}]}}},
    {G2, _} = handle(Added, 1, G1),
    {G3, Serves} = handle({timer, clean, 0}, 2, G2),
    ?assert(lists:member({publish, serving}, Serves)),
    Request = {request, {<<"1">>, 1}, <<"100">>, ref, #{context => new, commands => [{add_optional, #{}}]}, [alice]},
    {_, Sent} = handle(Request, 3, G3),
    ?assertMatch([_], sent("O-A=$", Sent)).

%% A request that creates a context is stored before it is sent. Otherwise, the other node of a pair couldn't find the
%% context after a takeover.
what_makes_a_context_is_kept_before_it_is_sent_test() ->
    {G, _} = happens([{{start, []}, 0}, {{timer, probe, {{127, 0, 0, 1}, 9}}, 0},
                      {{received, {reply, 2, {ok, [#{context => 1, results => [{add, 1, #{}}]}]}}}, 1}, {{timer, clean, 0}, 2}],
                     new(0, ?KEPT#{sentinel := none})),
    Request = {request, {<<"1">>, 1}, <<"100">>, ref, #{context => new, commands => [{add_optional, #{}}]}, [alice]},
    {Kept, First} = lobby_gateway_core:handle(Request, 3, G),
    ?assertMatch([{request, N, {_, {room, <<"100">>, ref, [alice]}}}, {durable, N}], lists:droplast(First)),
    [Durable] = [Durable || Durable = {durable, _} <- First],
    {_, Then} = lobby_gateway_core:handle(Durable, 3000, Kept),
    ?assertMatch([{send, _}, {deadline, 3100}], Then).
