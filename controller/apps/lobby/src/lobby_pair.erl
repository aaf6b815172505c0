%%% @doc A pair of nodes, one of which serves: how the nodes connect, and the operator's commands.
-module(lobby_pair).

-export([distribute/1, command/2, has_ended/2, open_ready/1, say_ready/2]).
-export_type([config/0, command/0]).

%% `lease': which node serves, see `lobby_lease'. `ready': the file that keepalived tracks. `gap': milliseconds without
%% a check of the lease after which a node exits, and without a message after which the other node counts as lost.
-type config() :: #{self := node(), peer := node(), cookie := binary(), lease := address | {file, file:filename()},
                    ready := file:filename() | none, gap := pos_integer()}.
%% `create': creates the store, before the first start, on one of the nodes. `alone': lets the next start go ahead
%% without the other node, which may have newer data. `leave': makes the other node forget this node, and empties this
%% node's folder.
-type command() :: create | alone | leave.

%% @doc Gives this node its name, and connects it with the other node, before mnesia starts. This works without epmd if
%% both nodes run with `-erl_epmd_port'. Sending a message doesn't connect the nodes, because connecting to a node that
%% hangs takes seconds.
-spec distribute(config()) -> ok | {error, term()}.
distribute(#{self := Self, peer := Peer, cookie := Cookie}) ->
    ok = application:set_env(kernel, dist_auto_connect, never),
    [_, Host] = string:split(atom_to_list(Self), "@"),
    _ = [application:set_env(kernel, inet_dist_use_interface, Address)
         || {ok, Address} <- [inet:parse_ipv4strict_address(Host)]],
    case net_kernel:start(Self, #{name_domain => longnames}) of
        {ok, _} ->
            true = erlang:set_cookie(binary_to_atom(Cookie)),
            _ = net_kernel:connect_node(Peer),
            ok;
        {error, Reason} -> {error, Reason}
    end.

%% @doc Runs a command, while mnesia isn't running.
-spec command(command(), config()) -> ok | {error, term()}.
command(create, _) ->
    mnesia:create_schema([node()]);
command(alone, _) ->
    mnesia:set_master_nodes([node()]);
command(leave, #{peer := Peer}) ->
    try erpc:call(Peer, lobby_store, admit, [node()]) of
        ok -> mnesia:delete_schema([node()]);
        {error, Reason} -> {error, Reason}
    catch
        error:{erpc, Reason} -> {error, Reason}
    end.

%% @doc Returns whether the other node has ended, so that its port refuses connections. A node that hangs still accepts
%% connections, and a node that was cut off doesn't answer.
-spec has_ended(node(), Milliseconds :: pos_integer()) -> boolean().
has_ended(Node, Timeout) ->
    [Name, Host] = string:split(atom_to_list(Node), "@"),
    case erl_epmd:port_please(Name, Host, Timeout) of
        {port, Port, _} -> {error, econnrefused} =:= gen_tcp:connect(Host, Port, [], Timeout);
        _ -> false
    end.

%% @doc Starts the program that writes this node's priority to the file.
-spec open_ready(file:filename() | none) -> port() | none.
open_ready(none) ->
    none;
open_ready(File) ->
    Program = filename:join(code:priv_dir(lobby), "ready"),
    open_port({spawn_executable, "/bin/bash"}, [{args, [Program, File]}, exit_status, in, out, binary]).

-spec say_ready(port() | none, integer()) -> ok.
say_ready(none, _) ->
    ok;
say_ready(Port, Value) ->
    _ = erlang:port_command(Port, [integer_to_list(Value), $\n], [nosuspend]),
    ok.
