%% Runs baresips for tests. Each baresip plays a tone, and records the sound that it receives.
-module(baresip).

-export([start/4, heard/3]).

%% Starts a caller that plays a tone of this frequency (in Hz), calls a URI, and hangs up after this many seconds. The
%% caller has its own folder.
start(Folder, Tone, Uri, Seconds) ->
    Recorded = filename:join(Folder, "recorded"),
    ok = filelib:ensure_dir(filename:join(Recorded, "x")),
    ok = file:write_file(filename:join(Folder, "tone.wav"), wav(Tone, 60)),
    ok = file:write_file(filename:join(Folder, "contacts"), ""),
    {_, Sip} = gateway:free_address(),
    ok = file:write_file(filename:join(Folder, "accounts"),
                         io_lib:format("<sip:tone~b@127.0.0.1:~b;transport=udp>;regint=0;audio_codecs=pcmu/8000/1;ptime=20\n", [Tone, Sip])),
    Modules = ["g711.so", "aufile.so", "aubridge.so", "sndfile.so"],
    ok = file:write_file(filename:join(Folder, "config"), [
        io_lib:format("poll_method epoll\nsip_listen 127.0.0.1:~b\naudio_player aubridge,x\naudio_source aufile,~s\naudio_alert aubridge,y\n"
                      "rtp_ports ~b-~b\njitter_buffer_delay 2-5\nnet_interface 127.0.0.1\nmodule_path /usr/lib/baresip/modules\nsnd_path ~s\n",
                      [Sip, filename:join(Folder, "tone.wav"), 40000 + 40 * (Tone div 100), 40038 + 40 * (Tone div 100), Recorded]),
        [["module ", Module, "\n"] || Module <- Modules], "module_tmp account.so\nmodule_app menu.so\n"]),
    Command = io_lib:format("baresip -f ~s -n 127.0.0.1 -e '/dial ~s' -t ~b < /dev/null > ~s/log 2>&1", [Folder, Uri, Seconds, Folder]),
    open_port({spawn, lists:flatten(Command)}, [exit_status]).

%% Returns a WAV file of a tone, with 16 bits a sample and 8,000 samples a second.
wav(Tone, Seconds) ->
    Samples = << <<(round(8000 * math:sin(2 * math:pi() * Tone * N / 8000))):16/little-signed>> || N <- lists:seq(1, 8000) >>,
    Data = binary:copy(Samples, Seconds),
    <<"RIFF", (36 + byte_size(Data)):32/little, "WAVEfmt ", 16:32/little, 1:16/little, 1:16/little, 8000:32/little, 16000:32/little,
      2:16/little, 16:16/little, "data", (byte_size(Data)):32/little, Data/binary>>.

%% Returns the tones that the recording contains between two times, in seconds.
heard(Folder, Tones, {From, To}) ->
    [File] = filelib:wildcard(filename:join([Folder, "recorded", "*dec.wav"])),
    {ok, <<_:44/binary, Data/binary>>} = file:read_file(File),
    Part = binary:part(Data, round(From * 8000) * 2, round((To - From) * 8000) * 2),
    Samples = [Sample || <<Sample:16/little-signed>> <= Part],
    [Tone || Tone <- Tones, amplitude(Tone, Samples) > 1000].

%% Returns the amplitude at one frequency, by Goertzel's algorithm.
amplitude(Tone, Samples) ->
    W = 2 * math:pi() * Tone / 8000,
    C = 2 * math:cos(W),
    {S1, S2} = lists:foldl(fun(X, {A, B}) -> {X + C * A - B, A} end, {0.0, 0.0}, Samples),
    2 * math:sqrt(S1 * S1 + S2 * S2 - C * S1 * S2) / length(Samples).
