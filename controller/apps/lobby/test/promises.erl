%% The values that each setting may have at a moment of a search. A setting may have a value as soon as the value is
%% requested. After the answer, the setting may have no other value until another one is requested.
-module(promises).

-export([new/0, given/3, asked/4, answered/3, possible/2]).
-export_type([promises/0]).

-type key() :: term().
-type value() :: term().
%% The changes since the last answer, newest first, and the number of that answer.
-opaque promises() :: #{key() => [{Number :: term(), [value()]}]}.

-spec new() -> promises().
new() -> #{}.

%% @doc Adds a setting that begins with a value.
-spec given(key(), value(), promises()) -> promises().
given(Key, Value, Promises) ->
    Promises#{Key => [{answered, [Value]}]}.

%% @doc Notes the request for a change, with its own number.
-spec asked(key(), Number :: term(), fun((value()) -> value()), promises()) -> promises().
asked(Key, Number, Change, Promises) ->
    #{Key := History} = Promises,
    Possible = possible(Key, Promises),
    case lists:usort([Change(Value) || Value <- Possible]) of
        Possible -> Promises;
        Values -> Promises#{Key := [{Number, Values} | History]}
    end.

%% @doc Notes that a change, and all changes before it, were answered successfully.
-spec answered(key(), Number :: term(), promises()) -> promises().
answered(Key, Number, Promises) ->
    #{Key := History} = Promises,
    case lists:splitwith(fun({Of, _}) -> Of =/= Number end, History) of
        {Later, [{_, Values} | _]} -> Promises#{Key := Later ++ [{answered, Values}]};
        {_, []} -> Promises
    end.

%% @doc Returns the values that a setting may have: none if there is no such setting.
-spec possible(key(), promises()) -> [value()].
possible(Key, Promises) ->
    lists:usort(lists:append([Values || {_, Values} <- maps:get(Key, Promises, [])])).
