%%% @doc Starts the stored rooms or calls when this process starts, and restarts those whose processes fail. A room or
%%% call that fails repeatedly is set aside, so that the others continue.
-module(lobby_keeper).
-behaviour(gen_server).

-export([start_link/1, running/1, started/3]).
-export([init/1, handle_continue/2, handle_call/3, handle_cast/2, handle_info/2]).
-export_type([kind/0]).

%% A room or call is set aside after this number of failures within this period in milliseconds. It restarts at once
%% after the first failure, and half a second after the second one. If another process killed it, that doesn't count as
%% a failure. If it fails because one of our supervisors restarts, this process ends first, and doesn't count the
%% failure.
-define(FAILURES, 3).
-define(PERIOD, 60000).
-define(PAUSE, 500).

-type kind() :: room | call.
-record(state, {kind :: kind(), names = #{} :: #{pid() => term()}, failures = #{} :: #{term() => [integer()]}}).

-spec start_link(kind()) -> gen_server:start_ret().
start_link(Kind) ->
    gen_server:start_link({local, name(Kind)}, ?MODULE, Kind, []).

name(room) -> lobby_room_keeper;
name(call) -> lobby_call_keeper.

%% @doc Returns the running process if the supervisor has already started it for another process.
-spec running(Started | {error, {already_started, pid()}}) -> Started | {ok, pid()}.
running({error, {already_started, Pid}}) -> {ok, Pid};
running(Started) -> Started.

%% @doc Registers a process that was just started, so that the keeper monitors it. If the process of a stored room or
%% call failed at its start, the keeper counts the failure and tries again, and this call exits.
-spec started(kind(), Name :: term(), supervisor:startchild_ret()) -> {ok, pid()}.
started(Kind, Name, {ok, Pid}) ->
    ok = gen_server:cast(name(Kind), {started, Name, Pid}),
    {ok, Pid};
started(Kind, Name, {error, Reason}) ->
    ok = gen_server:cast(name(Kind), {failed, Name, Reason}),
    exit({failed, Name, Reason}).

-spec init(kind()) -> {ok, #state{}, {continue, restore}}.
init(Kind) ->
    {ok, #state{kind = Kind}, {continue, restore}}.

%% Starts the stored rooms or calls in the background. Those that are needed earlier are started on demand.
-spec handle_continue(restore, #state{}) -> {noreply, #state{}}.
handle_continue(restore, State = #state{kind = Kind}) ->
    _ = spawn_link(fun() -> lists:foreach(fun(Name) -> _ = start(Kind, Name) end, kept(Kind)) end),
    {noreply, lists:foldl(fun({Name, Pid}, Acc) -> watch(Name, Pid, Acc) end, State, lobby_registry:names(Kind))}.

kept(room) -> lists:usort(lobby_store:keys(lobby_rooms) ++ lobby_store:groups(lobby_members));
kept(call) -> lobby_store:keys(lobby_calls).

is_kept(room, Name) -> lobby_room:exists(Name);
is_kept(call, Key) -> lobby_store:has(lobby_calls, Key).

start(room, Name) ->
    lobby_registry:whereis_name({room, Name}) =/= undefined orelse lobby_room:start(Name);
start(call, Key = {web, _}) ->
    lobby_web:find(Key);
start(call, Key) ->
    lobby_call:find(Key).

-spec handle_call(term(), gen_server:from(), #state{}) -> {reply, {error, unknown_call}, #state{}}.
handle_call(_, _, State) ->
    {reply, {error, unknown_call}, State}.

-spec handle_cast({started, term(), pid()} | {failed, term(), term()}, #state{}) -> {noreply, #state{}}.
handle_cast({started, Name, Pid}, State) ->
    {noreply, watch(Name, Pid, State)};
handle_cast({failed, Name, Reason}, State = #state{kind = Kind}) ->
    {noreply, case is_kept(Kind, Name) of true -> ended(Name, Reason, State); false -> State end}.

watch(_, Pid, State = #state{names = Names}) when is_map_key(Pid, Names) ->
    State;
watch(Name, Pid, State = #state{names = Names}) ->
    _ = monitor(process, Pid),
    State#state{names = Names#{Pid => Name}}.

-spec handle_info(term(), #state{}) -> {noreply, #state{}}.
handle_info({'DOWN', _, process, Pid, Reason}, State = #state{names = Names}) ->
    {Name, Rest} = maps:take(Pid, Names),
    {noreply, ended(Name, Reason, State#state{names = Rest})};
handle_info({start, Name}, State = #state{kind = Kind}) ->
    _ = spawn(fun() -> start(Kind, Name) end),
    {noreply, State};
handle_info(_, State) ->
    {noreply, State}.

ended(Name, Reason, State = #state{failures = Failures}) when Reason =:= normal; Reason =:= shutdown ->
    State#state{failures = maps:remove(Name, Failures)};
%% The process ended before it was monitored. If the room or call is still stored, the process failed.
ended(Name, noproc, State = #state{kind = Kind}) ->
    case is_kept(Kind, Name) of
        true -> ended(Name, failed, State);
        false -> State
    end;
%% Another process killed it, so this isn't its own failure.
ended(Name, killed, State) ->
    start_after(0, Name, State);
ended(Name, _, State = #state{kind = Kind, failures = Failures}) ->
    Now = erlang:monotonic_time(millisecond),
    Recent = [Now | [Time || Time <- maps:get(Name, Failures, []), Now - Time < ?PERIOD]],
    case length(Recent) of
        ?FAILURES ->
            ok = lobby_events:count(lobby_set_aside_total, none),
            _ = spawn(fun() -> set_aside(Kind, Name) end),
            State#state{failures = maps:remove(Name, Failures)};
        N ->
            start_after((N - 1) * ?PAUSE, Name, State#state{failures = Failures#{Name => Recent}})
    end.

start_after(Time, Name, State) ->
    _ = erlang:send_after(Time, self(), {start, Name}),
    State.

set_aside(room, Name) -> lobby_room:set_aside(Name);
set_aside(call, Key) -> lobby_call:set_aside(Key).
