/** A class that says what it is. <p>In two paragraphs.</p> */
#import <Foundation/NSObject.h>
@protocol Telling
/** Tells a <em>word</em>. */
- (id) tell: (id)word;
@end
@interface Small : NSObject <Telling>
{ int count; }
/** Answers aNumber, twice. See [NSObject-copy]. */
- (int) twice: (int)aNumber;
+ (Small*) small;
@end
/** A function. */
extern int smallFunction(int a, const char *b);
#define SMALL_MACRO 1
