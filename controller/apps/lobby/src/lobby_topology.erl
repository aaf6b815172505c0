%%% @doc Turns a change of the open flows in a context into Topology triples (RFC 3525, section 7.1.18).
%%%
%%% The triples of one request take effect together. A change that doesn't fit into one request takes several, which
%%% close flows first. So between two requests, no flow is open that is closed both before and after the change.
-module(lobby_topology).

-export([changes/3, changes/4, entry/3, after_batch/3, from_triples/1, everyone/1]).
-export_type([direction/0, triple/1]).

%% The maximum number of triples in a request. A triple takes up to 34 bytes, with ten-digit numbers, and the gateway
%% reads messages of up to 8,192 bytes.
-define(MAX_TRIPLES, 200).

-type direction() :: bothway | oneway | isolate.
%% In a oneway triple, the second termination hears the first one.
-type triple(Name) :: {Name | all, Name | all, direction()}.

%% @doc Returns all flows between these members, which are open in a context without a Topology.
-spec everyone([Id]) -> sets:set({Id, Id}).
everyone(Ids) ->
    sets:from_list([{A, B} || A <- Ids, B <- Ids, A =/= B], [{version, 2}]).

%% @doc Returns the triples that change the open flows between these members, in batches of one request each.
-spec changes([Id], Before :: sets:set({Id, Id}), After :: sets:set({Id, Id})) -> [[triple(Id)]].
changes(Ids, Before, After) ->
    changes(Ids, Before, After, ?MAX_TRIPLES).

%% @doc Like `changes/3', with at most this many triples in a batch.
-spec changes([Id], Before :: sets:set({Id, Id}), After :: sets:set({Id, Id}), pos_integer()) -> [[triple(Id)]].
changes(Ids, Before, After, Max) ->
    Pairs = [{Was, Is} || {A, B} <- pairs(Ids), Was <- [state(A, B, Before)], Is <- [state(A, B, After)], Was =/= Is],
    {Closing, Opening} = lists:partition(fun({Was, Is}) -> closes(Was, Is) end, Pairs),
    Triples = [Is || {_, Is} <- Closing ++ Opening],
    case length(Triples) =< Max orelse whole(Ids, After, Max) of
        true -> [Triples || Triples =/= []];
        {ok, Whole} -> [Whole];
        none -> batches(Triples, Max)
    end.

%% @doc Returns the triples for a member who enters a context, in which a newcomer is connected both ways with everyone.
-spec entry(Id, Others :: [Id], After :: sets:set({Id, Id})) -> [triple(Id)].
entry(Id, Others, After) ->
    [State || Other <- Others, State = {_, _, How} <- [state(Id, Other, After)], How =/= bothway].

%% Returns triples that set all flows: first the most common state for all pairs, then the exceptions. They must fit
%% into one request, because several requests would briefly open flows that must stay closed.
whole(Ids, After, Max) ->
    States = [state(A, B, After) || {A, B} <- pairs(Ids)],
    Candidates = [[{all, all, Most} | [State || State = {_, _, How} <- States, How =/= Most]]
                  || Most <- [bothway, isolate]],
    case [Whole || Whole <- Candidates, length(Whole) =< Max] of
        [Whole | _] -> {ok, Whole};
        [] -> none
    end.

pairs(Ids) ->
    [{A, B} || [A | Later] <- suffixes(Ids), B <- Later].

suffixes([]) -> [];
suffixes(List = [_ | Tail]) -> [List | suffixes(Tail)].

%% Returns the triple that describes the flows of a pair.
state(A, B, Flows) ->
    case {sets:is_element({A, B}, Flows), sets:is_element({B, A}, Flows)} of
        {true, true} -> {A, B, bothway};
        {true, false} -> {A, B, oneway};
        {false, true} -> {B, A, oneway};
        {false, false} -> {A, B, isolate}
    end.

%% Returns whether a pair's change closes a flow.
closes({_, _, isolate}, _) -> false;
closes({_, _, bothway}, _) -> true;
closes({_, _, oneway}, {_, _, bothway}) -> false;
closes({_, _, oneway}, _) -> true.

batches([], _) -> [];
batches(Triples, Max) when length(Triples) =< Max -> [Triples];
batches(Triples, Max) ->
    {Batch, Rest} = lists:split(Max, Triples),
    [Batch | batches(Rest, Max)].

%% @doc Returns the open flows between these members after a request with this batch.
-spec after_batch([Id], Before :: sets:set({Id, Id}), [triple(Id)]) -> sets:set({Id, Id}).
after_batch(Ids, Before, Batch) ->
    lists:foldl(fun({A, B, How}, Flows) ->
        set(How, [{X, Y} || X <- named(A, Ids), Y <- named(B, Ids), X =/= Y], Flows)
    end, Before, Batch).

%% @doc Returns the open flows that an audit of the topology lists.
-spec from_triples([triple(Id)]) -> sets:set({Id, Id}).
from_triples(Triples) ->
    lists:foldl(fun({A, B, How}, Flows) -> set(How, [{A, B}], Flows) end, sets:new([{version, 2}]), Triples).

named(all, Ids) -> Ids;
named(Id, _) -> [Id].

set(bothway, Pairs, Flows) -> opened(Pairs, opened(reversed(Pairs), Flows));
set(oneway, Pairs, Flows) -> opened(Pairs, closed(reversed(Pairs), Flows));
set(isolate, Pairs, Flows) -> closed(Pairs, closed(reversed(Pairs), Flows)).

opened(Pairs, Flows) -> lists:foldl(fun sets:add_element/2, Flows, Pairs).
closed(Pairs, Flows) -> lists:foldl(fun sets:del_element/2, Flows, Pairs).
reversed(Pairs) -> [{B, A} || {A, B} <- Pairs].
