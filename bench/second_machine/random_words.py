"""Words of random scripts: literals, kinds of arguments, and how often primitives come in each mixture."""

STRINGS = (
    '"a"', '"xy"', '"hello"', '""', r'"b\n"', r'"\t\"q\\"', r'"\303\251"', '"é"', '"€𝄞"', r'"\001\177"',
    '"abcdefgh"',
    '#("ab" 0 2 (face bold))', '#("abc" 0 1 (face bold) 1 3 (face italic rear-nonsticky t))',
    '#("wxyz" 0 1 (front-sticky t face bold) 2 4 (face it k 3))',
    '#("pq" 0 2 (rear-nonsticky (face)  face x n 5))', '#("rs" 0 2 (front-sticky (face n) face y n (a b)))',
    '#("u" 0 1 (read-only t rear-nonsticky t))', '#("tt" 0 1 (invisible t) 1 2 (s "str"))',
    '#("mm" 0 1 (rear-nonsticky 5 face q) 1 2 (front-sticky "x" face z))', '#("v" 0 1 (face nil k t))', '#("zz")',
    r'"\000"', "x0", "x0", "x1")
BUFFER_WORDS = ('"w"', '"out"', '"*scratch*"', '"nosuch"', '""', '"w<2>"', '"*events*"', r'"q\n\"z"')
PROPERTIES = (
    "'face", "'n", "'k", "'front-sticky", "'rear-nonsticky", "'invisible", "'priority", "'evaporate",
    "'before-string", "'after-string", "'s", "'read-only")
VALUES = (
    "x0", "x1", '#("st" 0 1 (face bold))', "0", "999999999999999999", r'"\377x"', "'before-change-functions", "'bold",
    "'italic", "t", "nil", "1", "-3", '"str"', "'(a b)", "'(face)", "'(face n)", "'()", "'(bold)", "'x")
PROPERTY_LISTS = (
    "x1", "x1", "x2", "x2", "'(priority 2 evaporate t)", "'(before-string \"B\" after-string \"A\")", "'(n 1 n 2)",
    "'(face (a b) n ())", "'(face bold)", "'(face italic n 5)", "'(n nil)", "'(face nil k t)", "nil", "'()", "'(face)",
    "'(face a face b)", "'(rear-nonsticky t)", "'(front-sticky (face) face q)", "'(1 2)", "'(s \"st\" k (a b))",
    "'(invisible t)", "'(read-only t)", "'(t face)", "'(k ())", "'(read-only nil)", "'(n 5 face bold)")
HOOKS = ("'before-change-functions", "'after-change-functions")
EQUALS = (
    '"ab"', '#("ab" 0 1 (face bold))', "'(\"ab\" 1)", "'(\"ab\" 1 ())", "'(\"ab\" 1 nil)", "'()", "nil", "m0", "m1",
    "x0", "x1", "x2", "o0", "b0", "b1", "1", "-1", "01", "t", "'t", "'nil", "'a", "'(a)", "'((a) b)", "'((a) b)", "p0",
    '""')
LOOSE_VARIABLES = ("unset", "x0", "x1", "x2", "x0", "x1", "x2")
HUGE_POSITIONS = (0, -1, -5, 99, 1000, 999999999999999999, -999999999999999999)
BLOCKS = ("save-excursion", "save-restriction", "save-current-buffer", "inhibit-hooks", "when-eq", "when-eq",
          "inhibit-read-only")

# Kinds of arguments that are one of a few words.
CHOICES = {
    "buffer-name": BUFFER_WORDS,
    "value": VALUES,
    "property-list": PROPERTY_LISTS,
    "flag": ("nil", "t", "t", "0", "nil"),
    "hook": HOOKS,
    "groups": ("1", "1", "1", "2", "2", "3", "5", "65536", "0", "65537", "1", "1", "1", "1", "1"),
    "rounds": ("1", "2", "3", "nil", "5", "1000", "0", "1001", "1", "2", "1", "2"),
    "coding": ("'utf-8-unix", "'utf-8-dos", "'latin-1-unix", "'utf-8-dos", "'nope"),
}

# Forms of short handlers, chosen for what they do to a change or a wait under way.
HANDLER_FORMS = (
    "(kill-buffer)", "(kill-buffer b1)", "(narrow-to-region 2 3)", "(undo-start)", '(insert "H")',
    "(delete-region 1 3)", "(goto-char unset)", "(erase-buffer)", "(buffer-disable-undo)", "(set-buffer b1)",
    "(goto-char 1)", "(widen)", "(undo-more 1)", "(undo-boundary)(undo-start)",
    "(remove-hook 'before-change-functions 'h0)", "(add-hook 'after-change-functions 'h1)",
    "(put-text-property 1 3 'face 'hk)", "(set-text-properties 1 5 nil)", "(delete-region 2 4)",
    "(set-buffer-modified-p nil)", '(insert-before-markers "B")', "(buffer-undo-list)", "(setq q (buffer-string))",
    "(set-marker m0 2)", "(delete-process p0)", '(kill-buffer "out")', "(accept-process-output p0 1)",
    "(narrow-to-region 1 2)(goto-char 1)", "(buffer-enable-undo)", '(rename-buffer "rn")', "(move-overlay o0 1 3)",
    "(set-buffer-read-only t)", '(inhibit-hooks (insert "I"))', "(undo-start)(undo-more 1)(undo-start)",
    "(set-process-filter p0 t)", "(set-process-filter p0 'h1)", "(set-process-buffer p0 b0)",
    "(put-text-property 1 2 'read-only t)", "(delete-region b e)", "(goto-char b)", "(insert s)",
    '(process-send-string p0 "k")', "(delete-process p1)", "(set-process-sentinel p0 nil)", "(kill-buffer b0)",
    '(kill-buffer "w")', '(setq p2 (start-process "n" "out" "x"))', "(process-send-eof p0)", '(get-process "p")',
    "(overlay-put o0 'evaporate t)", "(set-process-coding-system p0 'utf-8-dos)",
    '(save-excursion (goto-char 2)(insert "E"))', "(save-restriction (narrow-to-region 2 3)(erase-buffer))",
    "(goto-char unset)", "(setq x0 (buffer-string))", "(setq x1 (char-after b))", "(make-overlay 1 3)",
    "(inhibit-read-only (delete-region 1 2))", '(insert-and-inherit "J")', '(set-process-buffer p0 "w")',
    "(set-marker m0 1)")

SECOND_VALUES = (
    "(text-properties-at 1)", "(overlay-properties o0)", "(overlay-put o1 'k '(a b))", "(buffer-undo-list)",
    "(buffer-list)", "(get-text-property 1 'face)", "(process-list)", "(overlays-in 1 5)")
THIRD_VALUES = (
    "(text-properties-at 2)", "(buffer-name)", "(buffer-undo-list)", "(overlay-put o0 's x0)",
    "(delete-and-extract-region 1 2)")

# The kinds of the arguments of each primitive, by groups; `?` may be left out, and `*` may come up to twice.
GROUPS = {
    "buffers": """
        current-buffer; set-buffer buffer; get-buffer name; get-buffer-create name; generate-new-buffer buffer-name;
        rename-buffer buffer-name; kill-buffer buffer-or-nil?; buffer-live-p any; buffer-name buffer-or-nil?;
        buffer-list; buffer-modified-p buffer-or-nil?; set-buffer-modified-p flag; set-buffer-read-only flag;
        buffer-read-only-p buffer-or-nil?; kill-buffer buffer-or-nil?""",
    "queries": """
        point; point-min; point-max; buffer-size buffer-or-nil?; buffer-narrowed-p; goto-char position;
        char-after position-or-nil?; buffer-string; buffer-substring position position;
        buffer-substring-no-properties position position""",
    "changes": """
        insert string string*; insert-and-inherit string string*; insert-before-markers string string*;
        insert-before-markers-and-inherit string string*;
        insert-buffer-substring buffer position-or-nil? position-or-nil?; delete-region position position;
        delete-and-extract-region position position; erase-buffer; insert string string*;
        delete-region position position""",
    "narrowing": "narrow-to-region position position; widen; goto-char position",
    "markers": """
        make-marker; point-marker; copy-marker position-or-nil? flag?;
        set-marker marker position-or-nil buffer-or-nil?; marker-position marker; marker-buffer marker;
        marker-insertion-type marker; set-marker-insertion-type marker flag""",
    "properties": """
        get-text-property position property; text-properties-at position;
        put-text-property position position property value; add-text-properties position position property-list;
        remove-text-properties position position property-list;
        set-text-properties position position property-list; next-property-change position position-or-nil?;
        next-single-property-change position property position-or-nil?;
        previous-property-change position position-or-nil?;
        previous-single-property-change position property position-or-nil?;
        text-property-any position position property value; text-property-not-all position position property value""",
    "overlays": """
        make-overlay position position buffer-or-nil? flag? flag?; overlay-start overlay; overlay-end overlay;
        overlay-buffer overlay; overlay-put overlay property value; overlay-get overlay property;
        overlay-properties overlay; move-overlay overlay position position buffer-or-nil?; delete-overlay overlay;
        overlays-at position; overlays-in position position; get-char-property position property;
        next-overlay-change position; previous-overlay-change position; overlay-put overlay property value;
        move-overlay overlay position position buffer-or-nil?""",
    "hooks": "add-hook hook function; remove-hook hook function; add-hook hook function",
    "undo": """
        undo-boundary; undo-start; undo-more groups; buffer-undo-list; buffer-disable-undo; buffer-enable-undo;
        undo-more groups; undo-more groups; undo-boundary; undo-start; undo-start""",
    "processes": """
        start-process buffer-name name string string*; process-list; get-process process; process-name process;
        process-status process; process-buffer process; process-mark process; process-live-p process;
        process-exit-status process; process-filter process; process-sentinel process;
        set-process-filter process filter; set-process-sentinel process function-or-nil;
        set-process-buffer process buffer-or-nil; process-send-string process string; process-send-eof process;
        delete-process process; set-process-coding-system process coding; process-coding-system process;
        accept-process-output process-or-nil? rounds? flag?; accept-process-output process-or-nil? rounds? flag?;
        accept-process-output process-or-nil? rounds? flag?; set-process-filter process filter;
        set-process-sentinel process function-or-nil""",
}

# How much each group weighs in a mixture, and how many handlers a script of it has at most.
MIXTURES = {
    "text": (dict(buffers=1, queries=2, changes=4, narrowing=2, markers=3), 0),
    "buffers": (dict(buffers=6, queries=1, changes=2, narrowing=1, markers=2, hooks=0.3), 1),
    "properties": (dict(queries=1, changes=3, narrowing=1, properties=8, buffers=0.3, markers=0.3), 0),
    "overlays": (dict(queries=0.5, changes=4, narrowing=1, overlays=8, buffers=0.4, markers=0.4), 0),
    "places": (dict(changes=8, narrowing=1, overlays=2, markers=2, undo=1), 1),
    "undo": (dict(queries=0.7, changes=4, narrowing=0.5, properties=2, markers=1, undo=7, buffers=0.3,
                  overlays=0.3), 1),
    "hooks": (dict(buffers=1, queries=1, changes=5, narrowing=1, markers=1, properties=2, overlays=0.5, hooks=1,
                   undo=2), 4),
    "processes": (dict(buffers=1, queries=0.5, changes=1.5, narrowing=0.5, markers=0.5, properties=0.4, hooks=0.4,
                       processes=7, undo=0.3), 5),
    "nesting": (dict(buffers=0.4, changes=0.7, processes=5, hooks=0.2, queries=0.2, narrowing=0.2), 5),
    "all": (dict(buffers=1, queries=1, changes=3, narrowing=1, markers=1, properties=2, overlays=2, hooks=0.7, undo=2,
                 processes=3), 3),
    "read-only": (dict(buffers=1.5, changes=4, properties=4, narrowing=0.5, queries=0.3, undo=1, markers=0.3), 2),
    "bytes": (dict(processes=5, changes=0.5, queries=0.5), 2),
}
MIXTURE_CHOICES = (
    "text", "buffers", "properties", "overlays", "places", "undo", "undo", "hooks", "hooks", "processes", "processes",
    "nesting", "all", "all", "read-only", "bytes")
# How often a pattern of several forms comes in the place of one form.
PATTERN_SHARES = {"undo": 0.25, "hooks": 0.2, "text": 0.1, "all": 0.12, "places": 0.15, "properties": 0.08,
                  "read-only": 0.08, "overlays": 0.08}


def group_calls(group):
    """The calls of a group: the name of each primitive and the kinds of its arguments."""
    return [(name, kinds) for name, *kinds in (entry.split() for entry in GROUPS[group].split(";"))]


ARGUMENT_KINDS = {name: kinds for group in GROUPS for name, kinds in group_calls(group)}


def weights(mixture):
    """The weight of each primitive in a mixture: each group's, shared out among its calls."""
    totals = {}
    for group, weight in MIXTURES[mixture][0].items():
        calls = group_calls(group)
        for name, _ in calls:
            totals[name] = totals.get(name, 0) + weight / len(calls)
    return totals
