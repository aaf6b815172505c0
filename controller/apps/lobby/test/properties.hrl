%% What the properties use of PropEr. Debian's erlang-proper comes without its header.
-import(proper_types, [range/2, list/1, oneof/1, binary/0, boolean/0, frequency/1, vector/2]).

%% A crash counts as false: this PropEr can't report it, because it asks for the stack trace as OTP 23 did.
-define(FORALL(Value, Type, Property),
        proper:forall(Type, fun(Value) ->
            try (fun() -> Property end)() catch Class:Reason -> io:format("~P~n", [{Class, Reason}, 20]), false end
        end)).
-define(BIND(Value, Type, Made), proper_types:bind(Type, fun(Value) -> Made end, false)).

%% An EUnit test of a property, with this many cases.
-define(property(Property, Cases),
        {atom_to_list(Property), {timeout, 120, fun() ->
            ?assertEqual(true, proper:quickcheck(?MODULE:Property(), [{numtests, Cases}, quiet, long_result]))
        end}}).
