"""Texts in forms that files of others have, each of which the grammar of its language has to
accept.

They were written for this table. tests/corpora tries the files themselves.
"""

# A grammar file begins with its first line and nothing before it, and g0.lr is the grammar of the
# examples of the specification.
NO_BYTE_ORDER_MARK = {"lr", "g0"}

TEXTS = {
    "c": [
        # names that are types
        "size_t n;",
        "static const uint8_t *const table[] = { 1, 2 };",
        "typedef int (*compare)(const void *, const void *);",
        "wchar_t (*first)(void) = 0, *second;",
        "void f(void) { size_t n = 0; item *one = first, **two; const item *three; }",
        "void f(void) { for (item *one = list; one; one = one->next) ; }",
        'int main(int argc, char **argv) { FILE *file = fopen(argv[1], "r"); return 0; }',
        "void f(uint32_t, size_t n, char const *s, item *(*make)(void), item rest[]);",
        # casts
        "int a = (size_t) n + (item *) p->next;",
        "void *p = (unsigned char *) (void *) (item) q;",
        "int a = (uint64_t) (uintptr_t) p;",
        "item one = (item) { .next = 0 };",
        "void f(void) { (void) g; (void) h(1); }",
        # macros
        "EXPORT(int) f(void) { return 0; }",
        'MODULE_LICENSE("any");\nMODULE(one)\nint a;',
        "static LIST_HEAD(jobs, job) waiting = EMPTY(waiting);",
        "struct job { LIST_ENTRY(job) link; BITS flags; };",
        "void fail(const char *, ...) PRINTF(1, 2) NORETURN;",
        "void f(void) { EACH(one, &list) { g(one); } }",
        'char *a = "%" PRIu64 " of " TOTAL "\\n";',
        "int a = offsetof(struct job, next) + va_arg(list, char *);",
        # what is skipped
        "#define LOOP(n) \\\n    for (;;) { \\\n    }\nint a;",
        '#define A "/*" /* a comment\n   of two lines */\nint a;',
        "#error it isn't \"closed\nint a;",
        # after the preprocessor, by gcc
        'extern int f (int) __asm__ ("g") __attribute__ ((__nothrow__ , __leaf__));',
        "static __inline int f(const char *__restrict a) { return __extension__ ({ int b = *a; b; }); }",
        "typedef __builtin_va_list list; _Noreturn void f(void);",
        'void f(void) { __asm__ __volatile__ ("nop" : : "r" (a) : "memory"); }',
    ],
    "css": [
        ".card { color: red; &:hover { color: blue } > p { margin: 0 } .title & { order: 1 } }",
        ".card { p { margin: 0 } @media print { display: none } }",
        "ul { li, ol > li { a { color: red } } }",
    ],
    "control": [
        "Package: a\nDepends: b,\n# a comment\n c (>= 1)\n\n\nPackage: d\n",
        "# a comment before all\n\nFormat: 1.0\nFiles:\n 0 1 a\n",
    ],
    "glsl": [
        "#version 300 es\nprecision highp float;\nin vec2 a; out vec4 b;\nuniform sampler2D c;\nvoid main() { b = texture(c, a); }",
        "layout(std140) uniform A { mat4 b; } c; struct D { vec3 e; }; D f(D g) { D h = D(g.e * 2.0); return h; }",
        "varying HIGHP vec2 a; float b[3]; void main() { for (int i = 0; i < 3; i++) { b[i] = float(i) / 2.0; } }",
    ],
    "go": [
        '// a comment\n\npackage a // another\n\n/* and\none more */\nimport "fmt"\n\nfunc main() { fmt.Println("a") }',
        "package a\nvar b = []c{\n\t{1, 2}, // one\n\t{3, 4},\n}\n",
        "package a\nfunc (b *c[d]) e(f, g int) (h error) {\n\tif i := b.j(f); i != nil {\n\t\treturn i\n\t}\n\treturn\n}\n",
        "package a\nfunc b() {\n\tfor c := 0; c < 2; c++ {\n\t\tselect {\n\t\tcase d := <-e:\n\t\tdefault:\n\t\t}\n\t}\n}\n",
        "package a\nfunc b[c any, d ~[]c](e d) {\n\tf(e).\n\t\tg().\n\t\th(func() { return })\n}\n",
        # type parameters whose constraint begins with a bracket or a star
        "package a; func b[c any, d *c, e [2]d | []c](f e) {}",
        "package a; type b[c []int] struct{}; type d[e [f(func() {})]byte,] struct{}; type g[h, i *j | k] struct{}",
        "package a; type b[c *d,] struct{}; type e[f *g, h any] struct{}; type i[j *[]k | l] struct{}",
        # the length of an array behind the name of a type
        "package a; type (b [c]d; e [c*2+1]d; f [2*c]d; g [c.d[1]]e; h [i(c)]d; j [c == 1 && d || e]f; k [-c]d)",
        # conversions to types of lists, maps, channels, functions and structs, and what they hold
        "package a; var b, c, d = [3]e(f), []g[h](i), [](j)(k)",
        "package a; var b, c = map[[2]d][3]e(f), []interface{}(nil)",
        "package a; var b, c, d, e = chan int(f), chan<- int(f), <-chan int(f), []chan int(f)",
        "package a; var b, c, d = func() int(e), []func() int(e), struct{}(f)",
        # channels of channels, and methods of types without a name
        "package a; var b chan<- chan<- chan<- int; var c = (chan <- chan <- int)(nil)",
        "package a; var b, c = interface{ d(string) }.d, struct{ e }.f",
    ],
    "lua": [
        "#!/usr/bin/env lua\nprint(1)",
        "--[===[ ]==] ]===] x = [===[ ]] ]=] ]==] ]===]",
        "x = 0xe+1 y = 1e+1 z = .5 .. 3.",
    ],
    "nginx": [
        'location ~ ^/(a|b)\\.php$ { fastcgi_param A $document_root$b; if ($c ~* "d{2}") { rewrite ^ /e?f=$1#g last; } }',
    ],
    "scheme": [
        "(define-syntax swap! (syntax-rules () ((_ a b) (let ((t a)) (set! a b) (set! b t)))))",
        "#!/usr/bin/guile -s\n!#\n(display #t) ; a comment\n#| and #| another |# one |#",
        "(let loop ((n' 1)) `(,n' ,@(list #\\( #\\space #xFF -1/2 1e3)))",
    ],
    "sql": [
        # standard SQL
        "ALTER TABLE a ADD CONSTRAINT b FOREIGN KEY (c) REFERENCES d (e) ON DELETE CASCADE",
        "ALTER TABLE a ADD PRIMARY KEY (b, c)",
        "ALTER TABLE a DROP CONSTRAINT b CASCADE",
        "ALTER TABLE a ALTER COLUMN b SET DEFAULT 0",
        "DROP TABLE a, b CASCADE",
        "UPDATE a SET b = DEFAULT, c = c + 1 WHERE d = 2",
        "SELECT a FROM b WHERE c = ANY (SELECT d FROM e)",
        "SELECT count(*) FILTER (WHERE a > 1) FROM b",
        "SELECT substring(a FROM 2 FOR 3), trim(BOTH 'x' FROM a), position('x' IN a), extract(year FROM a) FROM b",
        "SELECT x.a FROM (VALUES (1, 2)) AS x (a, b)",
        "CREATE VIEW a AS SELECT b FROM c WHERE d > 1 WITH CHECK OPTION",
        "CREATE SCHEMA a; CREATE SEQUENCE b START WITH 1; CREATE DOMAIN c AS INT CHECK (VALUE > 0)",
        "MERGE INTO a USING b ON a.id = b.id WHEN MATCHED THEN UPDATE SET c = 1 WHEN NOT MATCHED THEN INSERT (id) VALUES (1)",
        "SAVEPOINT a; ROLLBACK TO SAVEPOINT a; START TRANSACTION; COMMIT WORK; TRUNCATE TABLE a; SET a TO b",
        "COPY a (b, c) FROM '/tmp/a.csv' WITH (FORMAT csv)",
        "CREATE TEMPORARY TABLE a (b INT) ON COMMIT DROP; CREATE TABLE a (b INT) AS SELECT 1",
        # SQLite
        "CREATE TABLE a (b INT) WITHOUT ROWID, STRICT",
        # PostgreSQL
        "CREATE FUNCTION f(a int) RETURNS int AS $$ BEGIN RETURN a; END; $$ LANGUAGE plpgsql",
        "INSERT INTO a (b) VALUES (1) ON CONFLICT (b) DO UPDATE SET c = 2 RETURNING id",
        "SELECT a::text, b -> 'c' ->> 'd', e[1], ARRAY[1, 2], now() - INTERVAL '1 day' FROM f WHERE g ~* 'h'",
        "\\echo the terminal's own\nCREATE EXTENSION a",
        "CREATE TABLE a (b INT) INHERITS (c) WITH (fillfactor = 70) TABLESPACE d; CREATE TABLE a (b INT) PARTITION BY RANGE (b)",
        # MySQL
        "CREATE TABLE a (b INT) ENGINE=InnoDB, DEFAULT CHARSET=utf8 COLLATE utf8_bin COMMENT='c' PARTITION BY HASH (b) PARTITIONS 4",
        "CREATE TABLE a (b INT) AUTO_INCREMENT=5 DATA DIRECTORY='/x' UNION=(c, d) PARTITION BY RANGE (b) (PARTITION p VALUES LESS THAN (10))",
        "CREATE TABLE `a` (`b` INT(10) UNSIGNED NOT NULL AUTO_INCREMENT COMMENT 'c', d ENUM('x', 'y'), KEY e (d(8))) ENGINE=InnoDB",
        "ALTER TABLE `a` MODIFY COLUMN `b` BIGINT UNSIGNED NOT NULL, CHANGE `c` `d` VARCHAR(64) CHARACTER SET utf8 COLLATE utf8_bin",
        "SET FOREIGN_KEY_CHECKS = 0; REPLACE INTO a (b) VALUES (1); INSERT IGNORE INTO a VALUES (1) ON DUPLICATE KEY UPDATE b = 2",
    ],
}
