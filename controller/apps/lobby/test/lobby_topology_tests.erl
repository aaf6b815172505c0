%% Compares changes of the topology with the effects of triples in RFC 3525, section 7.1.18.
-module(lobby_topology_tests).

-include_lib("eunit/include/eunit.hrl").
-include("properties.hrl").

-export([prop_the_batches_lead_to_the_wanted_flows/0, prop_closing_comes_first/0]).

%% Returns the open flows after a triple. Isolate and bothway affect both directions; oneway also closes the other
%% direction.
apply_triple({A, B, How}, Ids, Flows) ->
    Pairs = [{X, Y} || X <- named(A, Ids), Y <- named(B, Ids), X =/= Y],
    lists:foldl(fun({X, Y}, Open) -> apply_pair(How, X, Y, Open) end, Flows, Pairs).

apply_pair(bothway, X, Y, Open) -> sets:add_element({X, Y}, sets:add_element({Y, X}, Open));
apply_pair(isolate, X, Y, Open) -> sets:del_element({X, Y}, sets:del_element({Y, X}, Open));
apply_pair(oneway, X, Y, Open) -> sets:add_element({X, Y}, sets:del_element({Y, X}, Open)).

named(all, Ids) -> Ids;
named(Id, _) -> [Id].

apply_batch(Batch, Ids, Flows) ->
    lists:foldl(fun(Triple, Open) -> apply_triple(Triple, Ids, Open) end, Flows, Batch).

equal(A, B) -> lists:sort(sets:to_list(A)) =:= lists:sort(sets:to_list(B)).

%% Generates members, two sets of open flows between them, and a limit on the number of triples.
change() ->
    ?BIND(N, range(0, 7), ?BIND({Before, After}, {flows(N), flows(N)}, {lists:seq(1, N), Before, After, range(1, 30)})).

flows(N) ->
    ?BIND(List, list({range(1, max(1, N)), range(1, max(1, N))}),
         sets:from_list([{A, B} || {A, B} <- List, A =/= B], [{version, 2}])).

prop_the_batches_lead_to_the_wanted_flows() ->
    ?FORALL({Ids, Before, After, Max}, change(),
            begin
                Batches = lobby_topology:changes(Ids, Before, After, Max),
                Last = lists:foldl(fun(Batch, Flows) -> apply_batch(Batch, Ids, Flows) end, Before, Batches),
                equal(After, Last) andalso lists:all(fun(B) -> B =/= [] andalso length(B) =< Max end, Batches)
            end).

%% After each request, no flow is open that is closed both before and after the change. A flow is opened only once all
%% flows to be closed are closed, unless the pair's other direction was open before the change.
prop_closing_comes_first() ->
    ?FORALL({Ids, Before, After, Max}, change(),
            begin
                Batches = lobby_topology:changes(Ids, Before, After, Max),
                {_, Fine} = lists:foldl(fun(Batch, {Flows, Fine}) ->
                    Now = apply_batch(Batch, Ids, Flows),
                    {Now, Fine andalso sets:is_subset(Now, sets:union(Before, After))
                              andalso (sets:is_subset(Now, Before) orelse no_pair_left(Now, Before, After))}
                end, {Before, true}, Batches),
                Fine
            end).

%% Returns whether all flows to be closed are closed, or the other direction of each opened flow was open before the
%% change: a oneway triple can close that direction and open this one.
no_pair_left(Now, Before, After) ->
    Opened = sets:subtract(Now, Before),
    Left = sets:subtract(sets:intersection(Now, Before), After),
    sets:is_empty(Left) orelse lists:all(fun({A, B}) -> sets:is_element({B, A}, Before) end, sets:to_list(Opened)).

properties_test_() ->
    [?property(prop_the_batches_lead_to_the_wanted_flows, 500), ?property(prop_closing_comes_first, 500)].

no_change_takes_no_request_test() ->
    Flows = lobby_topology:everyone([1, 2, 3]),
    ?assertEqual([], lobby_topology:changes([1, 2, 3], Flows, Flows)).

one_pair_takes_one_triple_test() ->
    Before = lobby_topology:everyone([1, 2, 3]),
    ?assertEqual([[{1, 2, isolate}]],
                 lobby_topology:changes([1, 2, 3], Before, sets:subtract(Before, sets:from_list([{1, 2}, {2, 1}])))),
    ?assertEqual([[{2, 1, oneway}]],
                 lobby_topology:changes([1, 2, 3], Before, sets:del_element({1, 2}, Before))).

%% A member who enters is connected both ways with everyone, and no other flow changes.
an_entry_closes_flows_test() ->
    After = sets:from_list([{1, 2}, {2, 1}, {3, 2}, {2, 4}, {3, 4}], [{version, 2}]),
    ?assertEqual([{3, 2, oneway}, {2, 4, oneway}, {2, 5, isolate}], lobby_topology:entry(2, [1, 3, 4, 5], After)).

%% A lecture of 64 takes one request, with a wildcard.
a_lecture_takes_one_request_test() ->
    Ids = lists:seq(1, 64),
    After = sets:from_list([{1, To} || To <- tl(Ids)], [{version, 2}]),
    [Batch] = lobby_topology:changes(Ids, lobby_topology:everyone(Ids), After),
    ?assertEqual(64, length(Batch)),
    ?assertEqual({all, all, isolate}, hd(Batch)).
