%%% @doc Publishes events to the clients that are watching, and counts events.
-module(lobby_events).

-export([subscribe/1, unsubscribe/1, publish/1, count/2, counts/0]).
-export_type([event/0, counter/0, watcher/0]).

%% `room': the room has changed or ended. `away': the controller waits for a gateway with a journal. `returned': the
%% gateway is back, with all its terminations. `fenced': another controller has a higher number.
-type event() :: {room, lobby_room:name()}
               | {gateway, lobby_gateway:name(), serving | away | returned | lost | fenced | draining | drained}.
-type counter() :: lobby_gateway_losses_total | lobby_gateway_returns_total | lobby_conferences_kept_total
                 | lobby_conferences_made_again_total | lobby_topologies_repaired_total | lobby_strays_total
                 | lobby_gateway_fenced_total | lobby_set_aside_total | lobby_audit_lost_total.
%% A client that is watching, identified by the hash of its token.
-type watcher() :: {TokenHash :: binary(), operator | viewer}.
%% The maximum number of clients with one token.
-define(MAX_WATCHERS, 32).

%% @doc Subscribes this process to messages `{lobby_event, event()}'. If the token has too many clients, a viewer's new
%% client is rejected, and an operator's oldest client is sent `lobby_events_end'.
-spec subscribe(watcher()) -> ok | {error, too_many}.
subscribe(Watcher = {_, Role}) ->
    Watching = pg:get_local_members(lobby, {events, Watcher}),
    case {length(Watching) < ?MAX_WATCHERS, Role} of
        {false, viewer} -> {error, too_many};
        {IsFree, _} ->
            _ = [lists:last(Watching) ! lobby_events_end || not IsFree],
            ok = pg:join(lobby, {events, Watcher}, self()),
            pg:join(lobby, events, self())
    end.

%% @doc Unsubscribes this process, and discards its unread events.
-spec unsubscribe(watcher()) -> ok.
unsubscribe(Watcher) ->
    _ = [pg:leave(lobby, Group, self()) || Group <- [events, {events, Watcher}]],
    flush().

flush() ->
    receive
        {lobby_event, _} -> flush();
        lobby_events_end -> flush()
    after 0 -> ok
    end.

%% @doc Sends an event to all clients that are watching.
-spec publish(event()) -> ok.
publish(Event) ->
    lists:foreach(fun(Pid) -> Pid ! {lobby_event, Event} end, pg:get_local_members(lobby, events)).

%% @doc Increments a counter, which may belong to one gateway.
-spec count(counter(), lobby_gateway:name() | none) -> ok.
count(Counter, Gateway) ->
    lobby_store:count({Counter, Gateway}).

%% @doc Returns all counters, each with its gateway or `none'.
-spec counts() -> [{{counter(), lobby_gateway:name() | none}, pos_integer()}].
counts() ->
    lists:sort(lobby_store:all(lobby_counters)).
