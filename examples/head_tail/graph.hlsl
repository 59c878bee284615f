struct R { uint n; };
[Shader("node")] [NodeLaunch("thread")]
void Head(ThreadNodeInputRecord<R> i, [MaxRecords(1)] NodeOutput<R> Tail) { ThreadNodeOutputRecords<R> o = Tail.GetThreadNodeOutputRecords(1); o.Get().n = i.Get().n + 3; o.OutputComplete(); }
[Shader("node")] [NodeLaunch("thread")]
void Tail(ThreadNodeInputRecord<R> i) { }
