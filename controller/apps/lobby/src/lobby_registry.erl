%%% @doc Names of processes, for `{via, lobby_registry, Name}'. A name can be any term, so names of rooms and calls can
%%% come from the network.
-module(lobby_registry).
-behaviour(gen_server).

-export([start_link/0, register_name/2, unregister_name/1, whereis_name/1, send/2, processes/1, names/1]).
-export([init/1, handle_call/3, handle_cast/2, handle_info/2]).

%% The table has the processes by name. Callers of `register_name/2' write to the table themselves, so that they don't
%% wait for this process.
-type state() :: none.

-spec start_link() -> gen_server:start_ret().
start_link() ->
    gen_server:start_link({local, ?MODULE}, ?MODULE, [], []).

-spec register_name(term(), pid()) -> yes | no.
register_name(Name, Pid) ->
    %% This comes first, so that the name is removed even if the process ends at once.
    ok = gen_server:cast(?MODULE, {watch, Name, Pid}),
    registered(Name, Pid).

registered(Name, Pid) ->
    case ets:insert_new(?MODULE, {Name, Pid}) orelse ets:lookup(?MODULE, Name) of
        true -> yes;
        [{_, Pid}] -> yes;
        [Other] -> replaced(Other, Pid);
        [] -> registered(Name, Pid)
    end.

%% Replaces a process that has ended, although its end hasn't been reported yet.
replaced(Other = {Name, Owner}, Pid) ->
    case is_process_alive(Owner) of
        true -> no;
        false ->
            true = ets:delete_object(?MODULE, Other),
            registered(Name, Pid)
    end.

-spec unregister_name(term()) -> ok.
unregister_name(Name) ->
    true = ets:delete(?MODULE, Name),
    ok.

%% Finds a process by name. The table may still contain a process that has ended.
-spec whereis_name(term()) -> pid() | undefined.
whereis_name(Name) ->
    case ets:lookup(?MODULE, Name) of
        [{_, Pid}] -> case is_process_alive(Pid) of true -> Pid; false -> undefined end;
        [] -> undefined
    end.

-spec send(term(), term()) -> pid().
send(Name, Message) ->
    case whereis_name(Name) of
        undefined -> exit({badarg, {Name, Message}});
        Pid -> Pid ! Message, Pid
    end.

%% @doc Returns the processes whose names are pairs that begin with this atom.
-spec processes(atom()) -> [pid()].
processes(Kind) ->
    lists:append(ets:match(?MODULE, {{Kind, '_'}, '$1'})).

%% @doc Returns the processes of `processes/1', each with the second part of its name.
-spec names(atom()) -> [{term(), pid()}].
names(Kind) ->
    [{Name, Pid} || [Name, Pid] <- ets:match(?MODULE, {{Kind, '$1'}, '$2'})].

-spec init([]) -> {ok, state()}.
init([]) ->
    ?MODULE = ets:new(?MODULE, [named_table, public, {read_concurrency, true}]),
    {ok, none}.

-spec handle_call(term(), gen_server:from(), state()) -> {reply, {error, unknown_call}, state()}.
handle_call(_, _, State) ->
    {reply, {error, unknown_call}, State}.

%% One process may have several names.
-spec handle_cast({watch, term(), pid()}, state()) -> {noreply, state()}.
handle_cast({watch, Name, Pid}, State) ->
    _ = monitor(process, Pid, [{tag, {ended, Name}}]),
    {noreply, State}.

-spec handle_info(term(), state()) -> {noreply, state()}.
handle_info({{ended, Name}, _, process, Pid, _}, State) ->
    true = ets:delete_object(?MODULE, {Name, Pid}),
    {noreply, State};
handle_info(_, State) ->
    {noreply, State}.
