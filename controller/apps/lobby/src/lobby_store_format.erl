%%% @doc The format of stored values, by version. A change of the format needs a new version, and a clause that upgrades
%%% the previous one.
-module(lobby_store_format).

-export([pack/1, unpack/2]).
-export_type([error/0]).

-define(VERSION, 4).

-type error() :: {unknown_version, lobby_store:table()}.

%% @doc Returns a value with the version of its format.
-spec pack(Value :: term()) -> Stored :: term().
pack(Value) ->
    {version, ?VERSION, Value}.

%% @doc Returns the value, if this release knows its version.
-spec unpack(lobby_store:table(), Stored :: term()) -> {ok, Value :: term()} | {error, error()}.
unpack(_, {version, ?VERSION, Value}) -> {ok, Value};
%% Since version 4, a request's sender can have a number in its name.
unpack(_, {version, 3, Value}) -> {ok, Value};
unpack(lobby_counters, Count) when is_integer(Count) -> {ok, Count};
unpack(Table, _) -> {error, {unknown_version, Table}}.
