%define lr.type canonical-lr
%define api.value.type {struct node *}
%token NUM PLUS LP RP
%code requires {
#include "tree.h"
}
%{
int yylex(void);
static void yyerror(const char *message) { (void)message; }
#define YYMAXDEPTH 100000000
%}
%%
File: Sum            { root = $1; }
Sum: Sum PLUS Atom   { $$ = branch("Sum", 3, $1, $2, $3); }
   | Atom            { $$ = branch("Sum", 1, $1); }
Atom: NUM            { $$ = branch("Atom", 1, $1); }
    | LP Sum RP      { $$ = branch("Atom", 3, $1, $2, $3); }
%%
#include "lex.yy.c"
#include "main.h"
