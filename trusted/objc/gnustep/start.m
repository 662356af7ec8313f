/* A small program over Foundation: what its start takes. */
#import <Foundation/Foundation.h>

int main(void)
{
    NSAutoreleasePool *pool = [NSAutoreleasePool new];
    NSMutableArray *all = [NSMutableArray array];
    for (int i = 0; i < 5; i++) [all addObject: [NSString stringWithFormat: @"%d of %@", i, [all class]]];
    printf("%s\n", [[[all description] stringByReplacingOccurrencesOfString: @"\n" withString: @" "] UTF8String]);
    @try {
        [(id)all foo];
    } @catch (NSException *thrown) {
        printf("caught %s\n", [[thrown name] UTF8String]);
    }
    [pool release];
    return 0;
}
