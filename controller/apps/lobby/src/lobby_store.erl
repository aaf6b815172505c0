%%% @doc Keeps the state that outlives its processes: rooms, calls, and our terminations on gateways. With a folder for
%%% mnesia, the state also outlives the node. In a pair, each node has a copy, and a write is on both nodes, unless one
%%% is away, before `put/3' returns.
%%%
%%% A node of a pair with an empty folder waits for the other node, and copies its tables. A node that ended as the
%%% standby waits for the node that served, because only that node has the latest changes.
-module(lobby_store).
-behaviour(gen_server).

-export([start_link/1, put/3, put/4, get/2, get/3, has/2, delete/2, all/1, group/2, groups/1, keys/1, size/1]).
-export([count/1, is_open/0, follow/1, admit/1]).
-export([init/1, handle_continue/2, handle_call/3, handle_cast/2, handle_info/2]).
-export_type([table/0, config/0]).

%% Members are grouped by room, and terminations and requests by gateway.
-type table() :: lobby_rooms | lobby_gateways | lobby_calls | lobby_counters | lobby_settings | lobby_isolated
               | grouped().
-type grouped() :: lobby_members | lobby_terminations | lobby_requests.
%% `disc': the tables are also in mnesia's folder (its `dir').
-type config() :: #{store := memory | disc, pair := lobby_pair:config() | none}.
-define(GROUPED, [lobby_members, lobby_terminations, lobby_requests]).
-define(TABLES, [lobby_rooms, lobby_gateways, lobby_calls, lobby_counters, lobby_settings, lobby_isolated | ?GROUPED]).
-define(WAIT, 30000).
%% Milliseconds until a node asks the other one again.
-define(AGAIN, 500).

%% The state of a pair's node is the pair's configuration.
-type state() :: lobby_pair:config() | none.

-spec start_link(config()) -> gen_server:start_ret().
start_link(Config) ->
    gen_server:start_link({local, ?MODULE}, ?MODULE, Config, []).

%% @doc Writes a row. In a pair, both nodes have the row when this returns, unless the other node is away.
-spec put(table(), Key :: term(), Value :: term()) -> ok.
put(Table, Key, Value) ->
    write(fun() -> mnesia:write({Table, Key, lobby_store_format:pack(Value)}) end).

%% @doc Writes a row to a table with groups.
-spec put(grouped(), Key :: term(), Group :: term(), Value :: term()) -> ok.
put(Table, Key, Group, Value) ->
    write(fun() -> mnesia:write({Table, Key, lobby_store_format:pack(Value), Group}) end).

%% @doc Returns the value of a row, or `error' if there is no such row.
-spec get(table(), Key :: term()) -> {ok, Value :: term()} | error.
get(Table, Key) ->
    case mnesia:dirty_read(Table, Key) of
        [Row] -> {ok, unpack(Table, element(3, Row))};
        [] -> error
    end.

-spec get(table(), Key :: term(), Default :: term()) -> Value :: term().
get(Table, Key, Default) ->
    case get(Table, Key) of
        {ok, Value} -> Value;
        error -> Default
    end.

%% @doc Returns whether a table has a row with this key.
-spec has(table(), Key :: term()) -> boolean().
has(Table, Key) ->
    ets:member(Table, Key).

%% @doc Deletes a row, if it exists. In a pair, deletes it on both nodes, unless the other node is away.
-spec delete(table(), Key :: term()) -> ok.
delete(Table, Key) ->
    write(fun() -> mnesia:delete({Table, Key}) end).

%% Makes a change. In a pair, returns once both nodes have it, unless the other node is away.
write(Change) ->
    mnesia:sync_dirty(Change).

%% @doc Returns all rows of a table without groups.
-spec all(table()) -> [{Key :: term(), Value :: term()}].
all(Table) ->
    [{Key, unpack(Table, Stored)} || {_, Key, Stored} <- mnesia:dirty_match_object({Table, '_', '_'})].

%% @doc Returns the rows of a group, without reading any others.
-spec group(grouped(), Group :: term()) -> [{Key :: term(), Value :: term()}].
group(Table, Group) ->
    [{Key, unpack(Table, Stored)} || {_, Key, Stored, _} <- mnesia:dirty_index_read(Table, Group, group)].

unpack(Table, Stored) ->
    {ok, Value} = lobby_store_format:unpack(Table, Stored),
    Value.

%% @doc Returns the groups in a table that have rows.
-spec groups(grouped()) -> [Group :: term()].
groups(Table) ->
    lists:usort(mnesia:dirty_select(Table, [{{Table, '_', '_', '$1'}, [], ['$1']}])).

%% @doc Returns all keys of a table.
-spec keys(table()) -> [Key :: term()].
keys(Table) ->
    mnesia:dirty_all_keys(Table).

%% @doc Returns the number of rows in a table.
-spec size(table()) -> non_neg_integer().
size(Table) ->
    mnesia:table_info(Table, size).

%% @doc Increments a counter.
-spec count(Key :: term()) -> ok.
count(Key) ->
    _ = mnesia:dirty_update_counter(lobby_counters, Key, 1),
    ok.

%% @doc Returns whether this node has loaded its tables.
-spec is_open() -> boolean().
is_open() ->
    persistent_term:get({?MODULE, open}, false).

%% @doc Sets which tables this node loads at its next start: those of a serving node or, with `none', those that were
%% written last.
-spec follow(node() | none) -> ok.
follow(none) -> mnesia:set_master_nodes([]);
follow(Node) -> mnesia:set_master_nodes([Node]).

%% @doc Makes the tables forget a node's copies, so that the node can copy the tables to its empty folder. The node
%% itself calls this function on the other node.
-spec admit(node()) -> ok | {error, not_open}.
admit(Node) ->
    Open = is_open(),
    case Open andalso lists:member(Node, mnesia:system_info(db_nodes)) of
        true -> {atomic, ok} = mnesia:del_table_copy(schema, Node), ok;
        false when Open -> ok;
        false -> {error, not_open}
    end.

%% Opens the tables. Existing tables stay unchanged, so a restarted process finds its data.
-spec init(config()) -> {ok, state()} | {ok, state(), {continue, open}} | {stop, lobby_store_format:error()}.
init(#{store := Store, pair := none}) ->
    Store =:= disc andalso on_disc(),
    ok = create(case Store of memory -> ram_copies; disc -> disc_copies end),
    ok = mnesia:wait_for_tables(?TABLES, ?WAIT),
    case unreadable() of
        [] -> {ok, none};
        [Reason | _] -> {stop, Reason}
    end;
init(#{pair := Pair}) ->
    ok = persistent_term:put({?MODULE, open}, false),
    {ok, Pair, {continue, open}}.

on_disc() ->
    case mnesia:change_table_copy_type(schema, node(), disc_copies) of
        {atomic, ok} -> true;
        {aborted, {already_exists, schema, _, disc_copies}} -> true
    end.

create(Copies) ->
    lists:foreach(fun(Table) ->
        case mnesia:create_table(Table, [{Copies, [node()]} | columns(lists:member(Table, ?GROUPED))]) of
            {atomic, ok} -> ok;
            {aborted, {already_exists, Table}} -> ok
        end
    end, ?TABLES).

columns(true) -> [{attributes, [key, value, group]}, {index, [group]}];
columns(false) -> [{attributes, [key, value]}].

%% Returns an error for each row in an unknown format. Such rows, from another release, stay unchanged.
unreadable() ->
    [Reason || Table <- ?TABLES, Row <- mnesia:dirty_match_object(mnesia:table_info(Table, wild_pattern)),
               {error, Reason} <- [lobby_store_format:unpack(Table, element(3, Row))]].

%%% Opens the store of a pair's node: loads its tables, or copies the other node's.

-spec handle_continue(open, state()) -> {noreply, state()} | {stop, lobby_store_format:error(), state()}.
handle_continue(open, Pair = #{peer := Peer}) ->
    _ = net_kernel:connect_node(Peer),
    Has = case mnesia:system_info(use_dir) of
        true -> ok = met(Peer), loaded();
        false -> copied(Peer)
    end,
    case {Has, Has andalso unreadable()} of
        {true, []} ->
            ok = persistent_term:put({?MODULE, open}, true),
            {noreply, Pair};
        {true, [Reason | _]} -> {stop, Reason, Pair};
        {false, _} -> _ = erlang:send_after(?AGAIN, self(), open), {noreply, Pair}
    end.

%% Connects mnesia with the other node. Mnesia does so itself only if the nodes are already connected when it starts.
met(Peer) ->
    case lists:member(Peer, nodes()) andalso not lists:member(Peer, mnesia:system_info(running_db_nodes)) of
        true -> _ = mnesia:change_config(extra_db_nodes, [Peer]), ok;
        false -> ok
    end.

%% Loads the tables from the folder or, if mnesia considers the other node's tables newer, from that node.
loaded() ->
    %% An earlier release had fewer tables.
    case ?TABLES -- mnesia:system_info(tables) of
        [] -> mnesia:wait_for_tables(?TABLES, 0) =:= ok;
        _ -> create(disc_copies) =:= ok andalso mnesia:wait_for_tables(?TABLES, 0) =:= ok
    end.

%% Copies the tables from the other node, because the folder is empty. If the other node's store isn't open yet, the
%% caller retries.
copied(Peer) ->
    try erpc:call(Peer, ?MODULE, admit, [node()], ?WAIT) of
        ok -> joined(mnesia:change_config(extra_db_nodes, [Peer]));
        {error, not_open} -> false
    catch
        error:{erpc, _} -> false;
        exit:{exception, _} -> false
    end.

joined({ok, [_]}) ->
    true = on_disc(),
    lists:foreach(fun(Table) -> {atomic, ok} = mnesia:add_table_copy(Table, node(), disc_copies) end, ?TABLES),
    true;
joined(_) ->
    false.

-spec handle_call(term(), gen_server:from(), state()) -> {reply, {error, unknown_call}, state()}.
handle_call(_, _, State) ->
    {reply, {error, unknown_call}, State}.

-spec handle_cast(term(), state()) -> {noreply, state()}.
handle_cast(_, State) ->
    {noreply, State}.

-spec handle_info(term(), state()) -> {noreply, state()} | {noreply, state(), {continue, open}}.
handle_info(open, State) ->
    {noreply, State, {continue, open}};
handle_info(_, State) ->
    {noreply, State}.
